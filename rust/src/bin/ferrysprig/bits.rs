//! `bits`: where the bits went, by channel and block.

use crate::arguments::{flag, valued, Arguments, Command};
use crate::end::{End, Verdict};
use crate::frames::refused;
use crate::input::Capture;
use crate::output::{print, Holds, Output};
use crate::words;
use ferrysprig::{slot, Parser, Summary, MOST_BYTES, SLOTS};
use std::fmt::Write;

pub const BITS: Command = Command {
    name: "bits",
    does: "Shows where the bits went: those of the mantissas, by channel and block.",
    operands: &["FILE"],
    options: &[
        flag(
            "--all",
            "the mean of all frames of the file, not the first alone",
        ),
        valued(
            "--at",
            "BYTE",
            "begin at this byte of the file, counted from 0",
        ),
        valued("--svg", "FILE", "write a picture, and print nothing"),
    ],
    more: "A group's bits are counted to the channel of its first member.",
    run,
};

const BLOCKS: usize = 6;

/// What some frames have together.
#[derive(Default)]
struct Sum {
    frames: usize,
    /// The first one's place and summary.
    first: Option<(usize, Summary)>,
    /// Whether all have the channels of the first.
    alike: bool,
    bytes: usize,
    bits: [[usize; SLOTS]; BLOCKS],
    used: [bool; SLOTS],
}

/// What is shown: of each slot in use its name, and its bits in each block.
struct Chart {
    title: String,
    slots: Vec<(String, [usize; BLOCKS])>,
}

fn run(given: &Arguments) -> Result<Verdict, End> {
    let place = given.number("--at")?.unwrap_or(0);
    let mut capture = Capture::open(given.operand(0))?;
    let picture = match given.path("--svg") {
        Some(path) => Some(Output::beside(path, capture.input(), Holds::Text)?),
        None => None,
    };
    capture.seek(place)?;
    let name = capture.name().to_string();
    let mut parser = Parser::new();
    let mut sum = Sum::default();
    while capture.more(MOST_BYTES, || Ok(()))? {
        let (place, bytes) = (capture.place(), capture.rest());
        let frame = parser.parse(bytes);
        let frame = frame.map_err(|refusal| refused(&name, place, bytes, refusal))?;
        let passed = frame.summary.bytes;
        sum.add(place, frame.summary);
        if !given.has("--all") {
            break;
        }
        capture.pass(passed);
    }
    capture.progress.clear();
    let chart = sum.chart();
    match picture {
        None => print(bars(&chart, full_block()))?,
        Some(mut out) => {
            out.put(svg(&chart).as_bytes())?;
            out.keep()?;
        }
    }
    Ok(Verdict::Accepted)
}

/// How many channels a mode has, and what they are called.
fn channels(acmod: u8) -> &'static [&'static str] {
    match acmod {
        0 => &["first", "second"],
        1 => &["C"],
        2 => &["L", "R"],
        3 => &["L", "C", "R"],
        4 => &["L", "R", "S"],
        5 => &["L", "C", "R", "S"],
        6 => &["L", "R", "Ls", "Rs"],
        _ => &["L", "C", "R", "Ls", "Rs"],
    }
}

impl Sum {
    fn add(&mut self, place: usize, summary: Summary) {
        for (sum, bits) in self.bits.iter_mut().zip(summary.mantissa_bits) {
            for (sum, bits) in sum.iter_mut().zip(bits) {
                *sum += bits;
            }
        }
        for used in self.used.iter_mut().take(channels(summary.acmod).len()) {
            *used = true;
        }
        self.used[slot::COUPLING] |= summary.cpl_blocks > 0;
        self.used[slot::LFE] |= summary.lfeon;
        self.frames += 1;
        self.bytes += summary.bytes;
        self.alike = match &self.first {
            None => true,
            Some((_, first)) => self.alike && first.acmod == summary.acmod,
        };
        self.first.get_or_insert((place, summary));
    }

    /// What the slots are called.
    fn name(&self, slot: usize) -> String {
        let acmod = self.first.as_ref().map_or(0, |(_, first)| first.acmod);
        match slot {
            slot::COUPLING => "coupling".into(),
            slot::LFE => "LFE".into(),
            _ => match channels(acmod).get(slot).filter(|_| self.alike) {
                Some(name) => name.to_string(),
                None => format!("channel {slot}"),
            },
        }
    }

    fn chart(&self) -> Chart {
        let frames = self.frames.max(1);
        let mean = |sum: usize| (sum + frames / 2) / frames;
        let slots = (0..SLOTS).filter(|slot| self.used[*slot]);
        let slots = slots.map(|slot| (self.name(slot), self.bits.map(|block| mean(block[slot]))));
        let (place, title) = match &self.first {
            Some((place, s)) => (
                *place,
                words::frame(*place, s.bytes, s.acmod, s.lfeon, s.fscod),
            ),
            None => (0, String::new()),
        };
        let all: usize = self.bits.iter().flatten().sum();
        let (all, bits) = (mean(all), mean(8 * self.bytes));
        Chart {
            title: match self.frames {
                0 | 1 => format!("{title}; {all} of {bits} bits are mantissas"),
                _ => format!(
                    "{frames} frames from byte {place} on; on average {all} of {bits} bits are mantissas"
                ),
            },
            slots: slots.collect(),
        }
    }
}

impl Chart {
    /// The longest bar, at least one bit.
    fn most(&self) -> usize {
        let bits = self.slots.iter().flat_map(|(_, bits)| bits);
        bits.copied().max().unwrap_or(0).max(1)
    }

    fn sum(&self) -> usize {
        self.slots.iter().flat_map(|(_, bits)| bits).sum()
    }
}

/// A bar's length in a terminal, if it is the longest.
const LONGEST: usize = 56;

/// What bars are made of: blocks, where the terminal takes more than ASCII.
fn full_block() -> bool {
    let mut names = ["LC_ALL", "LC_CTYPE", "LANG"].iter();
    let told = names.find_map(|name| std::env::var_os(name).filter(|value| !value.is_empty()));
    let told = told.unwrap_or_default().to_string_lossy().to_lowercase();
    told.contains("utf-8") || told.contains("utf8")
}

/// A bar for each block of each channel.
fn bars(chart: &Chart, blocks: bool) -> String {
    let mut text = format!("{}\n", chart.title);
    let (most, sum) = (chart.most(), chart.sum().max(1));
    for (name, bits) in &chart.slots {
        let all: usize = bits.iter().sum();
        let share = all as f64 * 100.0 / sum as f64;
        let _ = writeln!(text, "{name}: {all} bits, {share:.1} %");
        for (block, bits) in bits.iter().enumerate() {
            let line = format!("  block {block}  {} {bits}", bar(*bits, most, blocks));
            text += &line;
            text += "\n";
        }
    }
    text
}

/// A bar in eighths of a character, or in whole ones.
fn bar(bits: usize, most: usize, blocks: bool) -> String {
    if !blocks {
        return "#".repeat((bits * LONGEST + most / 2) / most);
    }
    let eighths = (bits * LONGEST * 8 + most / 2) / most;
    let rest = ["", "▏", "▎", "▍", "▌", "▋", "▊", "▉"];
    "█".repeat(eighths / 8) + rest[eighths % 8]
}

/// A group of bars for each block, a colour for each channel.
fn svg(chart: &Chart) -> String {
    let colours = [
        "#4e79a7", "#f28e2b", "#59a14f", "#e15759", "#b07aa1", "#76b7b2", "#9c755f",
    ];
    let (left, top, width, height) = (60.0, 50.0, 690.0, 240.0);
    let bottom = top + height;
    let most = chart.most() as f64;
    let group = width / BLOCKS as f64;
    let thick = group * 0.84 / chart.slots.len().max(1) as f64;
    let mut text = String::from(
        "<svg xmlns=\"http://www.w3.org/2000/svg\" width=\"780\" height=\"360\" viewBox=\"0 0 780 360\" \
         font-family=\"sans-serif\" font-size=\"12\">\n<rect width=\"780\" height=\"360\" fill=\"#ffffff\"/>\n",
    );
    let _ = writeln!(text, "<text x=\"{left}\" y=\"24\">{}</text>", chart.title);
    for quarter in 0..=4 {
        let bits = most * f64::from(quarter) / 4.0;
        let y = bottom - height * f64::from(quarter) / 4.0;
        let right = left + width;
        let _ = writeln!(
            text,
            "<line x1=\"{left}\" y1=\"{y}\" x2=\"{right}\" y2=\"{y}\" stroke=\"#d0d0d0\"/>\n\
             <text x=\"54\" y=\"{}\" text-anchor=\"end\">{bits:.0}</text>",
            y + 4.0
        );
    }
    for block in 0..BLOCKS {
        let begin = left + group * (block as f64 + 0.08);
        for (at, ((name, bits), colour)) in chart.slots.iter().zip(colours).enumerate() {
            let tall = height * bits[block] as f64 / most;
            let _ = writeln!(
                text,
                "<rect x=\"{:.1}\" y=\"{:.1}\" width=\"{:.1}\" height=\"{tall:.1}\" fill=\"{colour}\">\
                 <title>{name}, block {block}: {} bits</title></rect>",
                begin + thick * at as f64,
                bottom - tall,
                thick * 0.9,
                bits[block]
            );
        }
        let middle = left + group * (block as f64 + 0.5);
        let _ = writeln!(
            text,
            "<text x=\"{middle:.1}\" y=\"{}\" text-anchor=\"middle\">block {block}</text>",
            bottom + 18.0
        );
    }
    for (at, ((name, bits), colour)) in chart.slots.iter().zip(colours).enumerate() {
        let x = left + width * at as f64 / chart.slots.len() as f64;
        let all: usize = bits.iter().sum();
        let _ = writeln!(
            text,
            "<rect x=\"{x:.1}\" y=\"328\" width=\"10\" height=\"10\" fill=\"{colour}\"/>\n\
             <text x=\"{:.1}\" y=\"338\">{name} {all}</text>",
            x + 14.0
        );
    }
    text + "</svg>\n"
}

#[cfg(test)]
mod tests {
    use super::*;

    #[test]
    fn bars_have_their_length() {
        assert_eq!(bar(0, 1, true), "");
        assert_eq!(bar(100, 100, true).chars().count(), LONGEST);
        assert_eq!(bar(50, 100, false), "#".repeat(LONGEST / 2));
        assert_eq!(bar(1, 8 * LONGEST, true), "▏");
        assert_eq!(bar(9, 8 * LONGEST, true), "█▏");
    }

    #[test]
    fn a_chart_without_bits() {
        let chart = Chart {
            title: "nothing".into(),
            slots: vec![("L".into(), [0; BLOCKS])],
        };
        assert!(bars(&chart, true).contains("L: 0 bits, 0.0 %"));
        assert!(svg(&chart).ends_with("</svg>\n"));
    }
}
