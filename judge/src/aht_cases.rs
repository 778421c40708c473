//! The generator of AHT sections, the same for the same seed and size.
//!
//! Sections are made to order, element by element, so that their ends, tags and refusals are known beforehand: whole, cut at any bit by the
//! given end or by the data's, with wrong gains and hebaps in them, at any place and among any bits. Small ranges, places around the end of
//! the data and of what can be counted, all hebaps, all composite gains and all values of a small mantissa are tried one by one; bytes and
//! hebaps at random, and hebaps as the original's allocation gives them, come after. A disagreement stops the program.

use crate::aht::*;
use crate::alloc::{allocate, Channel, Params};
use crate::bits::Writer;
use crate::layout::AhtAnswer;
use crate::rng::Rng;
use crate::tables::{DB_KNEE, FAST_DECAY, FAST_GAIN, FLOOR, HEBAP, SLOW_DECAY, SLOW_GAIN};
use std::collections::BTreeMap;

/// One call and the judge's answer.
pub struct Case<'a> {
    pub asked: Asked<'a>,
    pub answer: AhtAnswer,
}

/// What is to be reached: a kind and two numbers.
pub type Goal = (&'static str, usize, usize);

/// Answered so, 0 for no refusal.
pub const ANSWER: &str = "refusal";
/// The same by gaqmod, where it was read.
pub const IN_MODE: &str = "gaqmod, refusal";
/// A bin of an accepted section.
pub const HEBAPS: &str = "gaqmod, hebap of an accepted section";
pub const WRONG: &str = "wrong hebap";
pub const COMPOSITE: &str = "composite gain";
/// A bin of an accepted section with that gain, without and with a tag.
pub const NO_TAG: &str = "gaqmod and gain, hebap without tags";
pub const TAG: &str = "gaqmod and gain, hebap with tags";
pub const TAGS: &str = "gain, tags of one bin";
/// Refusal 6 at one of `SITES`, by gaqmod.
pub const GIVEN: &str = "refusal 6 by the given end, gaqmod";
pub const DATA: &str = "refusal 6 by the data's end, gaqmod";
/// Of the last composite gain of an accepted section.
pub const SHARED: &str = "bins of the last composite gain";
/// Where an accepted section with tags begins.
pub const IN_BYTE: &str = "bit of a byte";
/// By its place in `EDGES`, and two faults together by their places in `FAULTS`.
pub const EDGE: &str = "edge";
pub const FIRST_FAULT: &str = "fault before another";

/// What may not fit, and the gaqmods in which it stands.
const SITES: [(What, &[usize]); 9] = [
    (What::Gaqmod, &[0]),
    (What::Gain, &[1, 2]),
    (What::Composite, &[3]),
    (What::Vector, &[0, 1, 2, 3]),
    (What::Plain, &[0, 1, 2, 3]),
    (What::Small(2), &[1, 3]),
    (What::Large(2), &[1, 3]),
    (What::Small(4), &[2, 3]),
    (What::Large(4), &[2, 3]),
];

/// What can be wrong. Of two the one that is met first is told: 27 before all, then in the order of reading.
pub const FAULTS: [usize; 4] = [NO_SUCH_BIN, PAST_THE_END, WRONG_GAIN, WRONG_HEBAP];

/// Faults that can stand before others. (All gains stand before all bins.)
const ORDERS: [(usize, usize); 8] = [
    (NO_SUCH_BIN, PAST_THE_END),
    (NO_SUCH_BIN, WRONG_GAIN),
    (NO_SUCH_BIN, WRONG_HEBAP),
    (PAST_THE_END, WRONG_GAIN),
    (PAST_THE_END, WRONG_HEBAP),
    (WRONG_GAIN, PAST_THE_END),
    (WRONG_GAIN, WRONG_HEBAP),
    (WRONG_HEBAP, PAST_THE_END),
];

/// What is known of a call.
struct Call<'a> {
    asked: Asked<'a>,
    walk: &'a Walk<'a>,
    /// The data's end.
    bits: u128,
}

impl Call<'_> {
    fn array(&self) -> usize {
        self.asked.hebap.len()
    }

    fn empty(&self) -> bool {
        self.asked.first >= self.asked.past
    }

    fn by_given_end(&self) -> bool {
        (self.asked.end as u128) < self.bits
    }

    fn by_data(&self) -> bool {
        self.bits < self.asked.end as u128
    }

    /// How far past the limit the last thing would end.
    fn past_by(&self, bits: u128) -> bool {
        let unfit = self.walk.reads.last().filter(|read| read.value.is_none());
        unfit.is_some_and(|read| read.at + read.width as u128 == self.asked.limit() + bits)
    }

    fn sent(&self) -> usize {
        let gaqmod = self.walk.gaqmod.unwrap_or(0);
        let bins = self.asked.bins().iter();
        bins.filter(|hebap| has_gain(gaqmod, **hebap)).count()
    }

    fn last_composite(&self) -> Option<usize> {
        let mut reads = self.walk.reads.iter().rev();
        reads.find(|read| read.what == What::Composite)?.value
    }

    fn all_tags(&self) -> bool {
        let mut bins = self.walk.bins.iter();
        !self.walk.bins.is_empty() && bins.all(|(_, _, tags)| *tags == BLOCKS)
    }
}

type Edge = (&'static str, usize, fn(&Call<'_>) -> bool);

const WRAPPING: usize = usize::MAX - 1;

/// Calls to be met with this answer.
#[rustfmt::skip]
const EDGES: [Edge; 41] = [
    ("no data", PAST_THE_END, |c| c.bits == 0 && c.asked.end > 0),
    ("no hebaps", 0, |c| c.array() == 0),
    ("first bin at the end bin", 0, |c| c.asked.first == c.asked.past && c.asked.past < c.array()),
    ("first bin at the end bin at the end of the array", 0, |c| c.asked.first == c.array() && c.asked.past == c.array()),
    ("first bin past the end bin", 0, |c| c.asked.first > c.asked.past && c.asked.first < c.array()),
    ("first bin past the array", 0, |c| c.asked.first > c.array()),
    ("the largest first bin", 0, |c| c.asked.first == usize::MAX),
    ("empty range with end bin 0", 0, |c| c.empty() && c.asked.past == 0 && c.array() > 0),
    ("end bin at the end of the array", 0, |c| !c.empty() && c.asked.past == c.array()),
    ("end bin one above the array's length", NO_SUCH_BIN, |c| !c.empty() && c.asked.past == c.array() + 1),
    ("the largest end bin", NO_SUCH_BIN, |c| c.asked.past == usize::MAX),
    ("empty range with the end bin above the array's length", NO_SUCH_BIN, |c| c.empty()),
    ("no hebaps and end bin 1", NO_SUCH_BIN, |c| c.array() == 0 && c.asked.past == 1),
    ("one bin", 0, |c| c.asked.bins().len() == 1),
    ("a range that begins after the first bin and ends before the last", 0,
        |c| c.asked.first > 0 && c.asked.past < c.array() && c.asked.bins().len() > 1),
    ("a wrong hebap before the range", 0, |c| !c.empty() && c.asked.hebap[..c.asked.first].iter().any(|h| *h > LAST_HEBAP)),
    ("a wrong hebap after the range", 0, |c| !c.empty() && c.asked.hebap[c.asked.past..].iter().any(|h| *h > LAST_HEBAP)),
    ("hebaps with gains outside of the range alone", 0,
        |c| c.walk.gaqmod != Some(0) && c.sent() == 0 && c.asked.hebap.iter().any(|h| (8..12).contains(h))),
    ("more than 256 bins", 0, |c| c.asked.bins().len() > 256),
    ("more than 256 gains", 0, |c| c.sent() > 256),
    ("bins of hebap 0 alone", 0, |c| !c.empty() && c.asked.bins().iter().all(|h| *h == 0)),
    ("every mantissa a tag", 0, |c| c.all_tags()),
    ("every mantissa a tag, in more than 43 bins", 0, |c| c.all_tags() && c.walk.bins.len() > 43),
    ("gaqmod ends with the data", 0, |c| c.asked.at as u128 + 2 == c.bits && c.by_data()),
    ("gaqmod ends with the given end", 0, |c| c.asked.at as u128 + 2 == c.asked.end as u128 && c.by_given_end()),
    ("begins at the data's last bit", PAST_THE_END, |c| c.asked.at as u128 + 1 == c.bits && c.by_data()),
    ("begins at the data's end", PAST_THE_END, |c| c.asked.at as u128 == c.bits && c.by_data()),
    ("begins past the data's end", PAST_THE_END, |c| c.asked.at as u128 > c.bits && c.asked.at < c.asked.end),
    ("begins at the given end", PAST_THE_END, |c| c.asked.at == c.asked.end && c.by_given_end()),
    ("begins past the given end", PAST_THE_END, |c| c.asked.at > c.asked.end && (c.asked.at as u128) < c.bits),
    ("the given end is 0", PAST_THE_END, |c| c.asked.end == 0 && c.bits > 0),
    ("ends with the data", 0, |c| c.walk.at == c.bits && c.by_data() && c.walk.reads.len() > 1),
    ("ends with the given end", 0, |c| c.walk.at == c.asked.end as u128 && c.by_given_end() && c.walk.reads.len() > 1),
    ("would end a bit past the data", PAST_THE_END, |c| c.past_by(1) && c.by_data() && c.walk.reads.len() > 1),
    ("would end a bit past the given end", PAST_THE_END, |c| c.past_by(1) && c.by_given_end() && c.walk.reads.len() > 1),
    ("the largest given end", 0, |c| c.asked.end == usize::MAX && c.walk.reads.len() > 1),
    ("the largest first bit", PAST_THE_END, |c| c.asked.at == usize::MAX && c.bits > 8 && c.asked.end > 8),
    ("gaqmod ends at bit 2 to the 64th", PAST_THE_END, |c| c.asked.at == WRAPPING && c.bits > 8 && c.asked.end > 8),
    ("gaqmod ends at the last bit that can be counted", PAST_THE_END, |c| c.asked.at == WRAPPING - 1 && c.asked.end == usize::MAX),
    ("a composite gain of one bin, with gains of none", 0,
        |c| c.walk.gaqmod == Some(3) && c.sent() % 3 == 1 && c.last_composite().is_some_and(|word| word % 9 > 0)),
    ("a wrong composite gain of one bin", WRONG_GAIN, |c| c.sent() == 1),
];

/// The goals of a run.
pub fn required() -> Vec<Goal> {
    let mut goals: Vec<Goal> = Vec::new();
    goals.extend([0, 6, 25, 26, 27].map(|refusal| (ANSWER, refusal, 0)));
    for gaqmod in 0..4 {
        goals.extend([0, 6, 26].map(|refusal| (IN_MODE, gaqmod, refusal)));
        goals.extend((0..=LAST_HEBAP.into()).map(|hebap| (HEBAPS, gaqmod, hebap)));
        for hebap in 8..=LAST_HEBAP {
            let gains: &[usize] = match gaqmod {
                _ if !has_gain(gaqmod, hebap) => &[1],
                1 => &[1, 2],
                2 => &[1, 4],
                _ => &[1, 2, 4],
            };
            for gain in gains {
                let by = 10 * gaqmod + gain;
                goals.push((NO_TAG, by, hebap.into()));
                if *gain > 1 {
                    goals.push((TAG, by, hebap.into()));
                }
            }
        }
    }
    goals.push((IN_MODE, 3, WRONG_GAIN));
    goals.extend((usize::from(LAST_HEBAP) + 1..=255).map(|hebap| (WRONG, hebap, 0)));
    goals.extend((0..32).map(|word| (COMPOSITE, word, 0)));
    for gain in [2, 4] {
        goals.extend((0..=BLOCKS).map(|tags| (TAGS, gain, tags)));
    }
    for (site, (_, modes)) in SITES.iter().enumerate() {
        goals.extend(modes.iter().map(|gaqmod| (GIVEN, *gaqmod, site)));
        goals.extend(modes.iter().map(|gaqmod| (DATA, *gaqmod, site)));
    }
    goals.extend((1..=3).map(|bins| (SHARED, bins, 0)));
    goals.extend((0..8).map(|bit| (IN_BYTE, bit, 0)));
    goals.extend((0..EDGES.len()).map(|edge| (EDGE, edge, 0)));
    goals.extend(ORDERS.map(|(first, second)| (FIRST_FAULT, first, second)));
    goals
}

/// Says what a goal is.
pub fn say(goal: &Goal) -> String {
    let (kind, a, b) = *goal;
    match kind {
        ANSWER | WRONG | COMPOSITE | SHARED | IN_BYTE => format!("{kind} {a}"),
        NO_TAG | TAG => format!("{kind}: {} and {}, {b}", a / 10, a % 10),
        GIVEN | DATA => format!("{kind} {a} at {:?}", SITES[b].0),
        EDGE => EDGES[a].0.into(),
        FIRST_FAULT => format!("refusal {a} before refusal {b}"),
        _ => format!("{kind}: {a}, {b}"),
    }
}

/// The goals that a call reaches.
fn reached(call: &Call<'_>, answer: &AhtAnswer) -> Vec<Goal> {
    let (walk, refusal) = (call.walk, answer[0]);
    let mut goals = vec![(ANSWER, refusal, 0)];
    let edges = EDGES.iter().enumerate();
    let edges = edges.filter(|(_, (_, expected, met))| *expected == refusal && met(call));
    goals.extend(edges.map(|(at, _)| (EDGE, at, 0)));
    let composites = walk.reads.iter().filter(|r| r.what == What::Composite);
    goals.extend(composites.filter_map(|read| Some((COMPOSITE, read.value?, 0))));
    let Some(gaqmod) = walk.gaqmod else {
        if refusal == PAST_THE_END {
            goals.extend(call.by_given_end().then_some((GIVEN, 0, 0)));
            goals.extend(call.by_data().then_some((DATA, 0, 0)));
        }
        return goals;
    };
    goals.push((IN_MODE, gaqmod, refusal));
    match refusal {
        0 => {
            let hebaps = call.asked.bins().iter();
            goals.extend(hebaps.map(|hebap| (HEBAPS, gaqmod, usize::from(*hebap))));
            for (hebap, gain, tags) in &walk.bins {
                let kind = if *tags > 0 { TAG } else { NO_TAG };
                goals.push((kind, 10 * gaqmod + gain, (*hebap).into()));
                goals.push((TAGS, *gain, *tags));
            }
            if gaqmod == 3 && call.sent() > 0 {
                goals.push((SHARED, (call.sent() - 1) % 3 + 1, 0));
            }
            if answer[2] > 0 {
                goals.push((IN_BYTE, call.asked.at % 8, 0));
            }
        }
        PAST_THE_END => {
            let unfit = walk.reads.last().expect("what does not fit").what;
            let site = SITES.iter().position(|(what, _)| *what == unfit);
            let site = site.expect("a site");
            goals.extend(call.by_given_end().then_some((GIVEN, gaqmod, site)));
            goals.extend(call.by_data().then_some((DATA, gaqmod, site)));
        }
        WRONG_HEBAP => {
            let wrong = call.asked.bins().iter().find(|h| **h > LAST_HEBAP);
            goals.push((WRONG, (*wrong.expect("a wrong one")).into(), 0));
        }
        _ => {}
    }
    goals
}

/// A part of a section as it is written, and the refusal that it leads to once it is read (0: none). A wrong hebap has no bits.
#[derive(Clone, Copy)]
struct Element {
    width: usize,
    value: usize,
    refusal: usize,
}

/// How a section is to be.
struct Order<'a> {
    gaqmod: usize,
    bins: &'a [u8],
    gains: Gains<'a>,
    tags: Tags,
}

#[derive(Clone, Copy)]
enum Gains<'a> {
    Any,
    Words(&'a [usize]),
}

#[derive(Clone, Copy)]
enum Tags {
    /// So many of a hundred mantissas that can be tags are.
    Percent(usize),
    /// The mantissa of this number, among those that can be tags, has this value; no other is a tag.
    One { number: usize, value: usize },
}

/// A section, the hebaps that it is for, and the tags that it has.
#[derive(Clone)]
struct Section {
    hebap: Vec<u8>,
    first: usize,
    past: usize,
    elements: Vec<Element>,
    /// Of each bin of the range, the element at which it begins.
    begins: Vec<usize>,
    composites: Vec<usize>,
    tags: usize,
}

impl Section {
    fn element(&mut self, width: usize, value: usize) {
        self.elements.push(Element {
            width,
            value,
            refusal: 0,
        });
    }

    fn width(&self) -> usize {
        self.elements.iter().map(|element| element.width).sum()
    }

    /// The bits at which the elements end, counted from the section's first.
    fn ends(&self) -> Vec<usize> {
        let ends = self.elements.iter().scan(0, |end, element| {
            *end += element.width;
            Some(*end)
        });
        ends.collect()
    }

    /// What must be said of it at this bit, with this limit.
    fn known(&self, at: usize, limit: u128) -> AhtAnswer {
        if self.past > self.hebap.len() {
            return [NO_SUCH_BIN, 0, 0];
        }
        let mut end = at as u128;
        for element in &self.elements {
            end += element.width as u128;
            if end > limit {
                return [PAST_THE_END, 0, 0];
            }
            if element.refusal > 0 {
                return [element.refusal, 0, 0];
            }
        }
        [0, end as usize, self.tags]
    }
}

pub struct Sections<'s> {
    rng: Rng,
    pub counts: BTreeMap<Goal, usize>,
    pub calls: usize,
    sink: &'s mut dyn FnMut(&Case<'_>),
}

/// Sections made to order, and as many random calls, for each unit of size.
const OF_A_SIZE: usize = 20_000;

impl<'s> Sections<'s> {
    pub fn new(seed: u64, sink: &'s mut dyn FnMut(&Case<'_>)) -> Self {
        Sections {
            rng: Rng(seed ^ 0xA47),
            counts: BTreeMap::new(),
            calls: 0,
            sink,
        }
    }

    fn met(&mut self, goal: Goal) {
        *self.counts.entry(goal).or_default() += 1;
    }

    pub fn of(&self, goal: Goal) -> usize {
        self.counts.get(&goal).copied().unwrap_or(0)
    }

    /// What was to be reached and was not.
    pub fn missed(&self) -> Vec<String> {
        let missed = required().into_iter().filter(|goal| self.of(*goal) == 0);
        missed.map(|goal| say(&goal)).collect()
    }

    fn ask(&mut self, asked: Asked<'_>) -> AhtAnswer {
        let (walk, answer) = answer(asked);
        let call = Call {
            asked,
            walk: &walk,
            bits: 8 * asked.data.len() as u128,
        };
        let mut goals = reached(&call, &answer);
        goals.sort_unstable();
        goals.dedup();
        for goal in goals {
            self.met(goal);
        }
        self.calls += 1;
        (self.sink)(&Case { asked, answer });
        answer
    }

    /// A gain that can be sent in the mode, as a power of 2.
    fn any_gain(&mut self, gaqmod: usize) -> usize {
        match gaqmod {
            1 => self.rng.below(2),
            2 => 2 * self.rng.below(2),
            _ => self.rng.below(3),
        }
    }

    /// A section made to order, for an array that is its range alone.
    fn made(&mut self, order: Order<'_>) -> Section {
        let mut section = Section {
            hebap: order.bins.to_vec(),
            first: 0,
            past: order.bins.len(),
            elements: Vec::new(),
            begins: Vec::new(),
            composites: Vec::new(),
            tags: 0,
        };
        section.element(2, order.gaqmod);
        let mut powers = self.gains(&order, &mut section).into_iter();
        let mut number = 0;
        for hebap in order.bins {
            section.begins.push(section.elements.len());
            match hebap {
                0 => {}
                1..=7 => {
                    let bits = [2, 3, 4, 5, 7, 8, 9][usize::from(*hebap) - 1];
                    let value = self.rng.below(1 << bits);
                    section.element(bits, value);
                }
                _ => {
                    let bits = [3, 4, 5, 6, 7, 8, 9, 10, 11, 12, 14, 16][usize::from(*hebap) - 8];
                    let power = match has_gain(order.gaqmod, *hebap) {
                        true => powers.next().expect("a gain"),
                        false => 0,
                    };
                    for _ in 0..BLOCKS {
                        self.mantissa(bits, power, order.tags, &mut number, &mut section);
                    }
                }
            }
        }
        section
    }

    /// The gain words. Gives the gains as powers of 2, with those of no bin that fill the last word.
    fn gains(&mut self, order: &Order<'_>, section: &mut Section) -> Vec<usize> {
        let gaqmod = order.gaqmod;
        let powers: Vec<usize> = match order.gains {
            Gains::Any => {
                let sent = order.bins.iter().filter(|hebap| has_gain(gaqmod, **hebap));
                let sent = match gaqmod {
                    3 => sent.count().next_multiple_of(3),
                    _ => sent.count(),
                };
                (0..sent).map(|_| self.any_gain(gaqmod)).collect()
            }
            Gains::Words(words) if gaqmod == 3 => {
                let digits = |word: &usize| [word / 9, word % 9 / 3, word % 3];
                words.iter().flat_map(digits).collect()
            }
            Gains::Words(words) => words.iter().map(|word| word * gaqmod).collect(),
        };
        for three in powers.chunks(3).filter(|_| gaqmod == 3) {
            section.composites.push(section.elements.len());
            section.element(5, 9 * three[0] + 3 * three[1] + three[2]);
        }
        for power in powers.iter().filter(|_| gaqmod < 3) {
            section.element(1, usize::from(*power > 0));
        }
        powers
    }

    /// One block's mantissa of a bin; `number` counts those that can be tags.
    fn mantissa(
        &mut self,
        bits: usize,
        power: usize,
        tags: Tags,
        number: &mut usize,
        section: &mut Section,
    ) {
        if power == 0 {
            let value = self.any_value(bits);
            section.element(bits, value);
            return;
        }
        let small = bits - power;
        let tag = 1 << (small - 1);
        let value = match tags {
            Tags::Percent(percent) if self.rng.chance(percent) => tag,
            Tags::One { number: n, value } if n == *number => value,
            _ => self.no_tag(small),
        };
        section.element(small, value);
        *number += 1;
        if value == tag {
            let large = if power == 1 { bits - 1 } else { bits };
            let value = self.any_value(large);
            section.element(large, value);
            section.tags += 1;
        }
    }

    /// A value, now and then one that would be a tag elsewhere.
    fn any_value(&mut self, bits: usize) -> usize {
        match self.rng.below(4) {
            0 => 1 << (bits - 1),
            1 => 0,
            _ => self.rng.below(1 << bits),
        }
    }

    /// Any value that is no tag, often one that is near it.
    fn no_tag(&mut self, small: usize) -> usize {
        let (tag, most) = (1usize << (small - 1), (1usize << small) - 1);
        let value = match self.rng.below(6) {
            0 => tag - 1,
            1 => (tag + 1).min(most),
            2 => 0,
            3 => most,
            _ => self.rng.below(most + 1),
        };
        if value == tag {
            tag - 1
        } else {
            value
        }
    }

    /// The bits of a section at bit `at`, other bits before and after it, to the end of a byte, and `spare` bytes.
    fn written(&mut self, section: &Section, at: usize, spare: usize) -> Vec<u8> {
        let mut writer = Writer::new();
        for _ in 0..at {
            writer.put(1, self.rng.below(2) as u32);
        }
        for element in &section.elements {
            writer.put(element.width, element.value as u32);
        }
        while !writer.len().is_multiple_of(8) {
            writer.put(1, self.rng.below(2) as u32);
        }
        let mut data = writer.into_bytes();
        data.extend(self.rng.bytes(spare));
        data
    }

    /// A call about a section, whose answer is known.
    fn expect(&mut self, section: &Section, data: &[u8], at: usize, end: usize) -> AhtAnswer {
        let asked = Asked {
            data,
            at,
            end,
            hebap: &section.hebap,
            first: section.first,
            past: section.past,
        };
        let known = section.known(at, asked.limit());
        let answer = self.ask(asked);
        assert_eq!(answer, known, "as it was made: {asked:?}");
        answer
    }

    /// Bins, fewer ones more often.
    fn any_bins(&mut self) -> Vec<u8> {
        if self.rng.chance(4) {
            return allocated(&mut self.rng);
        }
        let count = match self.rng.below(100) {
            0 => 200 + self.rng.below(150),
            1..=10 => self.rng.below(60),
            11..=20 => self.rng.below(2),
            _ => self.rng.below(12),
        };
        let (low, high) = self.rng.pick(&[
            (0, 19),
            (0, 19),
            (0, 0),
            (0, 8),
            (1, 7),
            (7, 12),
            (8, 11),
            (8, 16),
            (8, 16),
            (11, 17),
            (16, 19),
        ]);
        let any = |rng: &mut Rng| (low + rng.below(high - low + 1)) as u8;
        (0..count).map(|_| any(&mut self.rng)).collect()
    }

    /// Any section, its range among any other hebaps.
    fn any_section(&mut self) -> Section {
        let bins = self.any_bins();
        let percent = self.rng.pick(&[0, 10, 10, 50, 100]);
        let order = Order {
            gaqmod: self.rng.below(4),
            bins: &bins,
            gains: Gains::Any,
            tags: Tags::Percent(percent),
        };
        let mut section = self.made(order);
        self.surround(&mut section);
        section
    }

    /// Other hebaps before and after the range.
    fn surround(&mut self, section: &mut Section) {
        if self.rng.chance(50) {
            let before = self.any_hebaps(4);
            section.first += before.len();
            section.past += before.len();
            let after = self.any_hebaps(4);
            section.hebap = [before, section.hebap.clone(), after].concat();
        }
    }

    /// Fewer than so many hebaps, right or wrong.
    fn any_hebaps(&mut self, most: usize) -> Vec<u8> {
        let count = self.rng.below(most);
        let most = self.rng.pick(&[12, 20, 256]);
        (0..count).map(|_| self.rng.below(most) as u8).collect()
    }

    /// A range without bins, of any array.
    fn empty_range(&mut self) {
        let order = Order {
            gaqmod: self.rng.below(4),
            bins: &[],
            gains: Gains::Any,
            tags: Tags::Percent(0),
        };
        let mut section = self.made(order);
        section.hebap = self.any_hebaps(6);
        let length = section.hebap.len();
        section.past = self.rng.below(length + 1);
        section.first = match self.rng.below(4) {
            0 => section.past,
            1 => section.past + self.rng.below(3),
            2 => length + self.rng.below(3),
            _ => far_out(&mut self.rng).max(section.past),
        };
        self.at_places(&section);
    }

    /// A section at two places, among other bits: the same width and tags, up to any end that leaves it whole.
    fn moved(&mut self, section: &Section) {
        for at in [self.rng.below(8), self.rng.below(70)] {
            let spare = self.rng.below(3);
            let data = self.written(section, at, spare);
            let whole = at + section.width();
            let end = match self.rng.below(4) {
                0 => whole,
                1 => whole + self.rng.below(9),
                2 => far_out(&mut self.rng).max(whole),
                _ => 8 * data.len(),
            };
            let answer = self.expect(section, &data, at, end);
            assert_eq!(answer, [0, whole, section.tags]);
        }
    }

    /// A section at some place, up to an end that leaves it whole, ends with it, or cuts it; and cut by the data's end.
    fn at_places(&mut self, section: &Section) {
        let at = match self.rng.below(4) {
            // So that it ends with a byte, or a bit after one.
            0 => (8 - section.width() % 8) % 8 + 8 * self.rng.below(3),
            1 => (9 - section.width() % 8) % 8 + 8 * self.rng.below(3),
            _ => self.rng.below(70),
        };
        let spare = self.rng.pick(&[0, 0, 1, 3]);
        let data = self.written(section, at, spare);
        let (whole, bits) = (at + section.width(), 8 * data.len());
        let inside = at + self.rng.below(section.width());
        let boundary = {
            let ends = section.ends();
            at + ends[self.rng.below(ends.len())]
        };
        let beyond = match self.rng.below(3) {
            0 => bits,
            1 => bits + self.rng.below(20),
            _ => far_out(&mut self.rng).max(bits),
        };
        for end in [beyond, whole, whole - 1, inside, boundary, boundary - 1] {
            self.expect(section, &data, at, end);
        }
        for cut in [whole / 8, (whole - 1) / 8, boundary / 8, inside / 8] {
            self.expect(section, &data[..cut], at, beyond);
        }
    }

    /// Two faults in one section: the first that is met is told.
    fn faults(&mut self) {
        let (first, second) = self.rng.pick(&ORDERS);
        let has = |fault| first == fault || second == fault;
        let mut bins = self.any_bins();
        if has(WRONG_GAIN) {
            bins.extend([8, 9, 10, 11]);
        }
        let gaqmod = if has(WRONG_GAIN) {
            3
        } else {
            self.rng.below(4)
        };
        let order = Order {
            gaqmod,
            bins: &bins,
            gains: Gains::Any,
            tags: Tags::Percent(30),
        };
        let mut section = self.made(order);
        // Where each fault is met: the bit that must be there.
        let (mut gain_at, mut hebap_at) = (0, 0);
        if has(WRONG_GAIN) {
            let place = section.composites[self.rng.below(section.composites.len())];
            section.elements[place].value = 27 + self.rng.below(5);
            section.elements[place].refusal = WRONG_GAIN;
            gain_at = section.ends()[place];
        }
        if has(WRONG_HEBAP) {
            let bin = self.rng.below(bins.len() + 1);
            let begins = section.begins.get(bin).copied();
            let place = begins.unwrap_or(section.elements.len());
            section.hebap.insert(bin, 20 + self.rng.below(236) as u8);
            section.past += 1;
            let wrong = Element {
                width: 0,
                value: 0,
                refusal: WRONG_HEBAP,
            };
            section.elements.insert(place, wrong);
            hebap_at = section.ends()[place];
        }
        self.surround(&mut section);
        if has(NO_SUCH_BIN) {
            let over = section.hebap.len() + 1;
            section.past = match self.rng.below(3) {
                0 => over,
                1 => over + self.rng.below(5),
                _ => far_out(&mut self.rng).max(over),
            };
        }
        let at = self.rng.below(30);
        let data = self.written(&section, at, 2);
        let met = match (first, second) {
            (PAST_THE_END, WRONG_GAIN) => self.rng.below(gain_at),
            (PAST_THE_END, WRONG_HEBAP) => self.rng.below(hebap_at),
            (WRONG_GAIN, _) => gain_at,
            (WRONG_HEBAP, _) => hebap_at,
            // 27 before all: nothing need be there.
            (_, PAST_THE_END) => self.rng.below(section.width()),
            _ => section.width(),
        };
        let answer = self.expect(&section, &data, at, at + met);
        assert_eq!(answer[0], first, "before {second}");
        self.met((FIRST_FAULT, first, second));
        let end = self.rng.pick(&[8 * data.len(), usize::MAX]);
        self.expect(&section, &data, at, end);
    }

    /// Bytes and hebaps without any order, at any places.
    fn random(&mut self) {
        let length = self.rng.pick(&[0, 1, 2, 3, 8, 30, 30, 60, 60, 200]);
        let mut data = self.rng.bytes(length);
        // Mostly zeros, so that small mantissas are tags more often.
        if self.rng.chance(50) {
            for byte in &mut data {
                *byte &= (self.rng.draw() & self.rng.draw()) as u8;
            }
        }
        let hebap = match self.rng.below(4) {
            0 => self.any_hebaps(40),
            _ => self.any_bins(),
        };
        let bits = 8 * length;
        let (at, end) = (self.any_place(bits), self.any_place(bits));
        let end = if self.rng.chance(60) { bits } else { end };
        let first = self.any_bin(hebap.len());
        let past = match self.rng.below(4) {
            0 => self.any_bin(hebap.len()),
            _ => hebap.len(),
        };
        self.ask(Asked {
            data: &data,
            at,
            end,
            hebap: &hebap,
            first,
            past,
        });
    }

    fn any_place(&mut self, bits: usize) -> usize {
        match self.rng.below(12) {
            0 => far_out(&mut self.rng),
            1 => (bits + 3).saturating_sub(self.rng.below(7)),
            2 => self.rng.below(bits + 20),
            _ => self.rng.below(20),
        }
    }

    fn any_bin(&mut self, length: usize) -> usize {
        match self.rng.below(12) {
            0 => far_out(&mut self.rng),
            1 => (length + 2).saturating_sub(self.rng.below(5)),
            2 => self.rng.below(length + 1),
            _ => self.rng.below(length / 4 + 1),
        }
    }

    /// All ranges of small arrays.
    fn all_ranges(&mut self) {
        let hebaps: [&[u8]; 6] = [&[], &[8], &[0, 19], &[3, 20, 9], &[11, 12, 16, 17], &[8; 5]];
        for (hebap, mode) in hebaps.iter().flat_map(|h| (0..4).map(move |m| (*h, m))) {
            let data = [vec![mode << 6 | 0x15], self.rng.bytes(60)].concat();
            let far = [1 << 32, 1 << 63, usize::MAX];
            let bins: Vec<usize> = (0..hebap.len() + 3).chain(far).collect();
            for first in &bins {
                for past in &bins {
                    self.ask(Asked {
                        data: &data,
                        at: 0,
                        end: 8 * data.len(),
                        hebap,
                        first: *first,
                        past: *past,
                    });
                }
            }
        }
    }

    /// Places around the ends of the data and of what can be counted, as first bit and as given end.
    fn all_places(&mut self) {
        for length in [0, 1, 2, 3, 9] {
            let data = self.rng.bytes(length);
            let bits = 8 * length;
            let mut places: Vec<usize> = (0..4).chain(bits.max(4)..bits + 4).collect();
            places.extend((1..4).filter_map(|n| bits.checked_sub(n)));
            for far in [1 << 32, 1 << 61, 1 << 63] {
                places.extend([far - 1, far, far + 1, far + bits]);
            }
            places.extend((0..20).map(|n| usize::MAX - n));
            places.sort_unstable();
            places.dedup();
            for (at, end) in places
                .iter()
                .flat_map(|a| places.iter().map(move |e| (*a, *e)))
            {
                for hebap in [&[][..], &[0, 1], &[8], &[19]] {
                    self.ask(Asked {
                        data: &data,
                        at,
                        end,
                        hebap,
                        first: 0,
                        past: hebap.len(),
                    });
                }
            }
        }
    }

    /// Every byte as hebap, in every mode: alone, before and after another.
    fn all_hebaps(&mut self) {
        for (hebap, gaqmod) in (0..=255).flat_map(|h| (0..4).map(move |m| (h, m))) {
            let front = [gaqmod << 6 | self.rng.below(32) as u8];
            let data = [&front[..], &self.rng.bytes(60)].concat();
            for hebap in [&[hebap][..], &[hebap, 9], &[10, hebap]] {
                self.ask(Asked {
                    data: &data,
                    at: 0,
                    end: 8 * data.len(),
                    hebap,
                    first: 0,
                    past: hebap.len(),
                });
            }
        }
    }

    /// Every composite gain as the first, the second and the last, of one, two and three bins.
    fn all_composites(&mut self) {
        for (word, bins) in (0..32).flat_map(|word| (1..8).map(move |bins| (word, bins))) {
            let hebap: Vec<u8> = (0..bins).map(|_| 8 + self.rng.below(9) as u8).collect();
            let words = hebap.len().div_ceil(3);
            for place in 0..words {
                let mut all: Vec<usize> = (0..words).map(|_| self.rng.below(27)).collect();
                all[place] = word.min(LAST_GAIN);
                let order = Order {
                    gaqmod: 3,
                    bins: &hebap,
                    gains: Gains::Words(&all),
                    tags: Tags::Percent(20),
                };
                let mut section = self.made(order);
                if word > LAST_GAIN {
                    let element = &mut section.elements[1 + place];
                    element.value = word;
                    element.refusal = WRONG_GAIN;
                }
                let at = self.rng.below(9);
                let data = self.written(&section, at, 1);
                self.expect(&section, &data, at, 8 * data.len());
            }
        }
    }

    /// Every value of a small mantissa, each in one of the six blocks.
    fn all_small_mantissas(&mut self) {
        let mut number = 0;
        for (gaqmod, power) in [(1, 1), (2, 2), (3, 1), (3, 2)] {
            for hebap in (8..=16).filter(|hebap| has_gain(gaqmod, *hebap)) {
                for value in 0..1 << (mantissa_bits(hebap) - power) {
                    number = (number + 1) % BLOCKS;
                    let word = if gaqmod == 3 { 9 * power } else { 1 };
                    let order = Order {
                        gaqmod,
                        bins: &[hebap],
                        gains: Gains::Words(&[word]),
                        tags: Tags::One { number, value },
                    };
                    let section = self.made(order);
                    let at = self.rng.below(9);
                    let data = self.written(&section, at, 0);
                    self.expect(&section, &data, at, usize::MAX);
                }
            }
        }
    }

    /// Some sections with all kinds of elements, cut at every bit: by the given end, and by the data's at every bit of a byte.
    fn all_cuts(&mut self) {
        for gaqmod in 0..4 {
            let order = Order {
                gaqmod,
                bins: &[5, 11, 0, 8, 9, 13, 18],
                gains: match gaqmod {
                    0 => Gains::Any,
                    1 => Gains::Words(&[1, 1, 0]),
                    2 => Gains::Words(&[1, 0, 1, 1]),
                    // Gains 2, 4 and 1, and 4 again.
                    _ => Gains::Words(&[9 + 6, 18]),
                },
                tags: Tags::Percent(60),
            };
            let section = self.made(order);
            for at in 0..8 {
                let data = self.written(&section, at, 1);
                for bytes in 0..=data.len() {
                    self.expect(&section, &data[..bytes], at, usize::MAX);
                }
                if at == gaqmod {
                    for end in 0..=8 * data.len() {
                        self.expect(&section, &data, at, end);
                    }
                }
            }
        }
    }

    /// Long ranges: all mantissas tags, more gains than a byte counts.
    fn long_ranges(&mut self) {
        for gaqmod in 0..4 {
            for (count, hebap) in [(44, 8), (256, 8), (257, 9), (300, 11), (800, 10)] {
                let words = vec![if gaqmod == 3 { 13 } else { 1 }; count];
                let order = Order {
                    gaqmod,
                    bins: &vec![hebap; count],
                    gains: match gaqmod {
                        0 => Gains::Any,
                        3 => Gains::Words(&words[..count.div_ceil(3)]),
                        _ => Gains::Words(&words),
                    },
                    tags: Tags::Percent(100),
                };
                let section = self.made(order);
                self.at_places(&section);
            }
        }
    }

    pub fn run(&mut self, size: usize) {
        self.all_ranges();
        self.all_places();
        self.all_hebaps();
        self.all_composites();
        self.all_small_mantissas();
        self.all_cuts();
        self.long_ranges();
        for round in 0..OF_A_SIZE * size {
            self.random();
            let section = self.any_section();
            self.moved(&section);
            if round % 4 == 0 {
                self.at_places(&section);
                self.faults();
            }
            if round % 40 == 0 {
                self.empty_range();
            }
        }
    }
}

/// Sizes and places that are far out.
fn far_out(rng: &mut Rng) -> usize {
    let near = rng.below(40);
    let base = rng.pick(&[1 << 16, 1 << 32, 1 << 61, 1 << 63, usize::MAX]);
    match rng.below(3) {
        0 => base,
        1 => base.saturating_add(near),
        _ => base - near,
    }
}

/// The hebaps of a channel, as the original's allocation gives them: none is above 19.
pub fn allocated(rng: &mut Rng) -> Vec<u8> {
    let mut exponent = rng.below(16) as i16;
    let exponents: Vec<i16> = (0..256)
        .map(|_| {
            exponent = (exponent + rng.below(5) as i16 - 2).clamp(0, 24);
            exponent
        })
        .collect();
    let channel = Channel {
        exp: &exponents,
        start: 0,
        end: 37 + 3 * (rng.below(61) + 12),
        fgain: FAST_GAIN[rng.below(8)].into(),
        snroffset: 4 * (16 * (rng.below(40) as i32 - 5) + rng.below(16) as i32),
        leak: None,
        delta: &[],
    };
    let params = Params {
        sdecay: SLOW_DECAY[rng.below(4)].into(),
        fdecay: FAST_DECAY[rng.below(4)].into(),
        sgain: SLOW_GAIN[rng.below(4)].into(),
        dbknee: DB_KNEE[rng.below(4)].into(),
        floor: FLOOR[rng.below(8)].into(),
        fscod: rng.below(3),
    };
    let hebap = allocate(&channel, &params, &HEBAP);
    assert!(hebap.iter().all(|hebap| *hebap <= LAST_HEBAP));
    hebap
}

/// A section for a benchmark: the hebaps of an allocation, whole, in data that ends with it, from bit 0 on.
pub fn usual(rng: &mut Rng, gaqmod: usize) -> (Vec<u8>, Vec<u8>) {
    let mut nothing = |_: &Case<'_>| {};
    let mut sections = Sections::new(rng.draw(), &mut nothing);
    let hebap = allocated(rng);
    let order = Order {
        gaqmod,
        bins: &hebap,
        gains: Gains::Any,
        tags: Tags::Percent(10),
    };
    let section = sections.made(order);
    (sections.written(&section, 0, 0), hebap)
}
