//! `levels`, `header` and `profile`: what each frame of a file says.

use crate::arguments::{flag, Arguments, Choice, Command};
use crate::end::{End, Verdict};
use crate::input::Capture;
use crate::output::Text;
use crate::words;
use ferrysprig::profile::{check_into, Profile};
use ferrysprig::{Field, Parser, MOST_BYTES, MOST_ROWS, ROW_NUMBERS};
use std::fmt::Display;

const CHANGES: Choice = flag(
    "--changes",
    "only frames that say something else than the frame before",
);

pub const LEVELS: Command = Command {
    name: "levels",
    does: "Prints the dialogue levels and gain words of each frame, with positions.",
    operands: &["FILE"],
    options: &[CHANGES],
    more: "Bits are counted from the begin of their frame, bytes from the begin of the file.",
    run: levels,
};

pub const HEADER: Command = Command {
    name: "header",
    does: "Prints what the header of each frame says.",
    operands: &["FILE"],
    options: &[CHANGES],
    more: "Nothing else of the frame is looked at.",
    run: header,
};

pub const PROFILE: Command = Command {
    name: "profile",
    does:
        "Says of each frame whether it is within the contribution profile, and if not, which rule\n\
           it breaks first, by which field (docs/FORMAT.md).",
    operands: &["FILE"],
    options: &[CHANGES],
    more: "Where a frame is not within it, the first rule that it breaks is told, and the field\n\
           that breaks it (docs/FORMAT.md). The exit status is 0 if all frames are within, else 1.",
    run: profile,
};

/// A frame that was looked at.
struct Said {
    bytes: usize,
    /// The frame in a line.
    heading: String,
    /// What it says.
    body: String,
}

/// Goes through the frames of the file, and prints each one, or each one that says something else than the one before.
fn each(
    given: &Arguments,
    mut look: impl FnMut(&str, usize, &[u8]) -> Result<Said, End>,
) -> Result<(), End> {
    let mut capture = Capture::open(given.operand(0))?;
    let mut text = Text::new()?;
    let name = capture.name().to_string();
    let changes = given.has(CHANGES.name);
    let mut before = None;
    if text.on_terminal() {
        capture.progress.never();
    }
    while capture.more(MOST_BYTES, || text.flush())? {
        let said = match look(&name, capture.place(), capture.rest()) {
            Ok(said) => said,
            // What was found before it is printed before it.
            Err(end) => return text.flush().and(Err(end)),
        };
        if !changes || before.as_ref() != Some(&said.body) {
            text.put(said.heading + &said.body)?;
            before = Some(said.body);
        }
        capture.pass(said.bytes);
    }
    text.flush()
}

/// A frame's refusal, and that there is nothing to be read, if so.
pub fn refused(name: &str, place: usize, bytes: &[u8], refusal: impl Display) -> End {
    match (bytes, place) {
        ([], 0) => End::refused(name, place, format_args!("{refusal} (it is empty)")),
        ([], _) => End::refused(name, place, format_args!("{refusal} (it ends there)")),
        _ => End::refused(name, place, refusal),
    }
}

fn levels(given: &Arguments) -> Result<Verdict, End> {
    let mut parser = Parser::new();
    each(given, |name, place, bytes| {
        let frame = parser.parse(bytes);
        let frame = frame.map_err(|refusal| refused(name, place, bytes, refusal))?;
        let s = frame.summary;
        let mut body = String::new();
        for field in frame.fields {
            if let Some(level) = words::level(&field) {
                body += &format!("  bit {}, width {}: {level}\n", field.pos, field.width);
            }
        }
        let heading = words::frame(place, s.bytes, s.acmod, s.lfeon, s.fscod) + "\n";
        Ok(Said {
            bytes: s.bytes,
            heading,
            body,
        })
    })?;
    Ok(Verdict::Accepted)
}

fn header(given: &Arguments) -> Result<Verdict, End> {
    let mut parser = Parser::new();
    each(given, |name, place, bytes| {
        let header = parser.header(bytes);
        let header = header.map_err(|refusal| refused(name, place, bytes, refusal))?;
        let s = header.summary;
        let bsi = header.fields.skip_while(|field| field.name != "bsid");
        let heading = words::frame(place, s.bytes, s.acmod, s.lfeon, s.fscod);
        Ok(Said {
            bytes: s.bytes,
            heading: format!("{heading}, blocks from bit {}\n", s.end),
            body: words::wrapped(&bsi.map(value).collect::<Vec<_>>()),
        })
    })?;
    Ok(Verdict::Accepted)
}

/// A field's name and value, or a span's length.
fn value(field: Field) -> String {
    match field.role.is_span() {
        true => format!("{} of {} bytes", field.name, field.width / 8),
        false => format!("{} {}", field.name, field.value),
    }
}

fn profile(given: &Arguments) -> Result<Verdict, End> {
    let mut parser = Parser::new();
    let mut room = vec![0; MOST_ROWS * ROW_NUMBERS];
    let mut verdict = Verdict::Accepted;
    each(given, |name, place, bytes| {
        let (profile, mut fields) = match check_into(bytes, 0, &mut room) {
            Ok(told) => told,
            // The parser tells where, too.
            Err(refusal) => {
                let refusal = match parser.parse(bytes) {
                    Err(whole) => whole.to_string(),
                    Ok(_) => refusal.to_string(),
                };
                return Err(refused(name, place, bytes, refusal));
            }
        };
        let mut body = format!("{profile}");
        if let Profile::Broken { row, .. } = profile {
            verdict = Verdict::Refused;
            if let Some(field) = fields.nth(row) {
                body += &format!(" ({} {} at bit {})", field.name, field.value, field.pos);
            }
        }
        // The header alone tells how long the frame is.
        let header = parser.header(bytes);
        let header = header.map_err(|refusal| refused(name, place, bytes, refusal))?;
        Ok(Said {
            bytes: header.summary.bytes,
            heading: format!("frame at byte {place}: "),
            body: body + "\n",
        })
    })?;
    Ok(verdict)
}
