//! What the captures and calls of the generator are to reach.

use super::again::{Check, Lent, Stop, Visit, Walk};
use super::{FRAME, GAP, NO_ENTRY, NO_OUTPUT, NO_ROW};
use crate::agree::Judge;
use crate::corners::MOST_ROWS;
use crate::cut::REFUSALS;
use crate::layout::{ENTRY, ROW};
use crate::pieces::SYNC;
use crate::tables::ac3_frame_words;
use std::collections::{BTreeMap, BTreeSet};
use std::ops::RangeInclusive;

/// Which of a capture's frames a check fails at.
const WHICH: [&str; 4] = [
    "the only frame",
    "the first frame",
    "a middle frame",
    "the last frame",
];

/// Where a place lies that is no frame, and that a parse stops at for want of rows.
const BESIDE: [&str; 4] = [
    "a place of a capture without frames",
    "a place before the first frame",
    "a place between frames",
    "a place after the last frame",
];

/// The first check that fails at a frame, and the others that would.
const AS_WELL: [(Check, &[Check]); 7] = [
    (Check::Gap, &[Check::Rows]),
    (Check::Gap, &[Check::Output]),
    (Check::Gap, &[Check::Rows, Check::Output]),
    (Check::Rows, &[Check::Entry]),
    (Check::Rows, &[Check::Output]),
    (Check::Rows, &[Check::Entry, Check::Output]),
    (Check::Entry, &[Check::Output]),
];

/// A room's name, how much of it is a row, an entry or a byte, and the refusal where it does not suffice.
const ROOMS: [(&str, usize, usize); 3] = [
    ("rows", ROW, NO_ROW),
    ("list", ENTRY, NO_ENTRY),
    ("output", 1, NO_OUTPUT),
];

/// How much there is of a room.
const SIZES: [&str; 4] = ["nothing", "one less", "just enough", "a whole one more"];

/// Bytes that are too few for a header, and those that just suffice.
const SHORT: RangeInclusive<usize> = 1..=6;

/// What a capture is, beside the refusals in its gaps.
const CAPTURES: [&str; 25] = [
    "empty",
    "without a gap",
    "of one frame",
    "without a frame",
    "gap, then frame",
    "frame, then gap",
    "frame, gap, frame",
    "gap, frame, gap",
    "frame, frame",
    "gap of 1 byte between frames",
    "gap longer than any frame",
    "sync word as the last two bytes",
    "first byte of a sync word as the last byte",
    "first byte of a sync word before a frame",
    "sync word before a frame",
    "frame of 128 bytes",
    "frame of 3,840 bytes",
    "frame of 4,067 rows",
    "frame inside a frame",
    "frame inside the length that a refused one claims",
    "rows of an earlier place left behind those of the last",
    "a frame's rows left behind those of a later gap",
    "only sync words",
    "random bytes",
    "packets lost",
];

fn stopped(check: Check, at: &str) -> String {
    let gap = if check == Check::Gap {
        "the gap before "
    } else {
        ""
    };
    format!("{} at {gap}{at}", check.refusal())
}

fn stopped_as_well(check: Check, others: &[Check]) -> String {
    let others: Vec<String> = others.iter().map(|c| c.refusal().to_string()).collect();
    let gap = if check == Check::Gap { " at a gap" } else { "" };
    format!("{}{gap}, {} as well", check.refusal(), others.join(" and "))
}

fn left_over(room: &str, numbers: usize, refusal: usize) -> String {
    format!("{room}: {numbers} numbers left over at answer {refusal}")
}

fn size(room: &str, size: &str) -> String {
    format!("{room}: {size}")
}

fn in_a_gap(refusal: u32) -> String {
    format!("refusal {refusal} in a gap")
}

fn short(bytes: usize) -> String {
    format!("{bytes} bytes in all")
}

fn last_gap(bytes: usize) -> String {
    format!("last gap of {bytes} bytes")
}

/// What a run of the generator must reach.
pub fn required() -> Vec<String> {
    let mut goals: Vec<String> = Vec::new();
    goals.extend([0, NO_OUTPUT, NO_ENTRY, NO_ROW].map(|n| format!("answer {n}")));
    for check in [Check::Gap, Check::Rows, Check::Entry, Check::Output] {
        goals.extend(WHICH.map(|frame| stopped(check, frame)));
    }
    for check in [Check::Gap, Check::Rows] {
        goals.extend(BESIDE.map(|place| stopped(check, place)));
    }
    goals.extend(["36 at the last gap", "36 at the only gap"].map(String::from));
    goals.extend(AS_WELL.map(|(check, others)| stopped_as_well(check, others)));
    for (room, whole, refusal) in ROOMS {
        goals.extend(SIZES.map(|of| size(room, of)));
        for answer in [0, refusal] {
            goals.extend((1..whole).map(|n| left_over(room, n, answer)));
        }
    }
    goals.extend(CAPTURES.map(String::from));
    goals.extend(SHORT.map(short));
    goals.extend(SHORT.map(last_gap));
    let others = (1..=REFUSALS as u32).filter(|n| *n != 7);
    goals.extend(others.map(in_a_gap));
    goals
}

/// How often each goal was reached.
#[derive(Default)]
pub struct Reached(pub BTreeMap<String, usize>);

impl Reached {
    pub fn add(&mut self, goal: impl Into<String>) {
        *self.0.entry(goal.into()).or_default() += 1;
    }

    /// What was to be reached and was not.
    pub fn missed(&self) -> Vec<String> {
        let mut goals = required();
        goals.retain(|goal| !self.0.contains_key(goal));
        goals
    }

    /// What a call reaches.
    pub(super) fn call(&mut self, walk: &Walk<'_>, lent: Lent, stop: Option<Stop>) {
        let answer = stop.map_or(0, |(_, check)| check.refusal());
        self.add(format!("answer {answer}"));
        if let Some((place, check)) = stop {
            self.stop(walk, lent, place, check);
        }
        let Lent {
            numbers,
            list,
            bytes,
        } = walk.need();
        let sizes = [
            (lent.numbers, numbers),
            (lent.list, list),
            (lent.bytes, bytes),
        ];
        for ((room, whole, refusal), (lent, need)) in ROOMS.into_iter().zip(sizes) {
            if lent % whole > 0 && [0, refusal].contains(&answer) {
                self.add(left_over(room, lent % whole, answer));
            }
            let sizes = [
                answer == refusal && lent == 0,
                answer == refusal && lent + 1 == need,
                answer == 0 && lent == need,
                answer == 0 && lent == need + whole,
            ];
            for (of, it_is) in SIZES.into_iter().zip(sizes) {
                if it_is {
                    self.add(size(room, of));
                }
            }
        }
    }

    fn stop(&mut self, walk: &Walk<'_>, lent: Lent, place: usize, check: Check) {
        if place == walk.capture.len() {
            self.add(match walk.frames.is_empty() {
                true => "36 at the only gap",
                false => "36 at the last gap",
            });
            return;
        }
        let Some(at) = walk.frames.iter().position(|f| f.place == place) else {
            let first = walk.frames.first().is_none_or(|f| place < f.place);
            let last = walk.frames.last().is_none_or(|f| f.place < place);
            self.add(stopped(
                check,
                match (first, last) {
                    (true, true) => BESIDE[0],
                    (true, false) => BESIDE[1],
                    (false, false) => BESIDE[2],
                    (false, true) => BESIDE[3],
                },
            ));
            return;
        };
        self.add(stopped(
            check,
            match (at, walk.frames.len() - 1) {
                (0, 0) => WHICH[0],
                (0, _) => WHICH[1],
                (at, last) if at < last => WHICH[2],
                _ => WHICH[3],
            },
        ));
        let others = failing(walk, lent, at);
        let others: Vec<Check> = others.into_iter().filter(|other| *other > check).collect();
        // Where the gap finds no entry the frame finds none, either.
        let told = |other: &Check| check != Check::Gap || *other != Check::Entry;
        let others: Vec<Check> = others.into_iter().filter(told).collect();
        if !others.is_empty() {
            self.add(stopped_as_well(check, &others));
        }
    }

    /// What a capture reaches.
    pub(super) fn capture(&mut self, walk: &Walk<'_>, judge: &mut Judge) {
        let capture = walk.capture;
        let entries = walk.entries();
        let kinds: Vec<usize> = entries.iter().map(|entry| entry.kind).collect();
        let has = |run: &[usize]| kinds.windows(run.len()).any(|kinds| kinds == run);
        let mut threes = entries.windows(3);
        let mut gaps = entries.iter().filter(|e| e.kind == GAP);
        let of_length = |length| walk.frames.iter().any(|f| f.length == length);
        let last = entries.last().filter(|e| e.kind == GAP && kinds.len() > 1);
        let ends = |bytes: &[u8]| last.is_some() && capture.ends_with(bytes);
        // Bytes that end where a frame begins, in a gap.
        let before = |bytes: &[u8]| {
            let mut pairs = entries.windows(2).filter(|e| e[0].kind == GAP);
            pairs.any(|e| capture[e[0].place..e[0].end()].ends_with(bytes))
        };
        let mut accepted = walk.visits.iter().filter(|v| v.answer.is_ok());
        let counts = || walk.visits.iter().map(Visit::count);
        let behind = counts().last() < counts().max();
        let in_last_gap = last.is_some_and(|gap| gap.length > 5);
        let found = [
            ("empty", capture.is_empty()),
            ("without a gap", kinds.len() > 1 && !kinds.contains(&GAP)),
            ("of one frame", kinds == [FRAME]),
            ("without a frame", kinds == [GAP]),
            ("gap, then frame", has(&[GAP, FRAME])),
            ("frame, then gap", has(&[FRAME, GAP])),
            ("frame, gap, frame", has(&[FRAME, GAP, FRAME])),
            ("gap, frame, gap", has(&[GAP, FRAME, GAP])),
            ("frame, frame", has(&[FRAME, FRAME])),
            (
                "gap of 1 byte between frames",
                threes.any(|e| e[1].kind == GAP && e[1].length == 1),
            ),
            ("gap longer than any frame", gaps.any(|e| e.length > 3840)),
            ("sync word as the last two bytes", ends(&SYNC)),
            (
                "first byte of a sync word as the last byte",
                ends(&SYNC[..1]),
            ),
            (
                "first byte of a sync word before a frame",
                before(&SYNC[..1]),
            ),
            ("sync word before a frame", before(&SYNC)),
            ("frame of 128 bytes", of_length(128)),
            ("frame of 3,840 bytes", of_length(3840)),
            (
                "frame of 4,067 rows",
                accepted.any(|v| v.count() == MOST_ROWS),
            ),
            ("frame inside a frame", inside_a_frame(walk, judge)),
            (
                "frame inside the length that a refused one claims",
                inside_a_refused_one(walk),
            ),
            (
                "rows of an earlier place left behind those of the last",
                behind,
            ),
            (
                "a frame's rows left behind those of a later gap",
                behind && in_last_gap,
            ),
        ];
        for (what, it_is) in found {
            if it_is {
                self.add(what);
            }
        }
        if SHORT.contains(&capture.len()) {
            self.add(short(capture.len()));
        }
        if let Some(gap) = last.filter(|gap| SHORT.contains(&gap.length)) {
            self.add(last_gap(gap.length));
        }
        let refusals = walk.visits.iter().filter_map(|v| v.answer.err());
        let refusals: BTreeSet<u32> = refusals.collect();
        refusals.into_iter().for_each(|n| self.add(in_a_gap(n)));
    }
}

/// The checks that would fail at a frame, each by itself.
fn failing(walk: &Walk<'_>, lent: Lent, at: usize) -> Vec<Check> {
    let frame = walk.frames[at];
    let visit = walk.visits.iter().find(|v| v.place == frame.place);
    let bytes: usize = walk.frames[..=at].iter().map(|f| f.length).sum();
    let mut failing = Vec::new();
    if visit.expect("a frame's place").count() > lent.numbers / ROW {
        failing.push(Check::Rows);
    }
    if walk.entries_to(frame.place).len() >= lent.list / ENTRY {
        failing.push(Check::Entry);
    }
    if bytes > lent.bytes {
        failing.push(Check::Output);
    }
    failing
}

/// Is there a place inside a listed frame at which another one would be accepted?
fn inside_a_frame(walk: &Walk<'_>, judge: &mut Judge) -> bool {
    let mut inside = walk.frames.iter().flat_map(|f| f.place + 1..f.end());
    inside.any(|place| {
        walk.capture[place..].starts_with(&SYNC)
            && judge.ample(walk.capture, place).answer.verdict.is_ok()
    })
}

/// Is there a frame within the length that a refused one before it claims?
fn inside_a_refused_one(walk: &Walk<'_>) -> bool {
    // From refusal 5 on the codes have a size, and the capture is as long.
    let claims = |visit: &&Visit| visit.answer.is_err_and(|n| n >= 5);
    walk.visits.iter().filter(claims).any(|visit| {
        let code = usize::from(walk.capture[visit.place + 4]);
        let words = ac3_frame_words(code >> 6, code & 63).expect("a size");
        let claimed = visit.place..visit.place + 2 * words;
        let mut frames = walk.frames.iter();
        frames.any(|f| claimed.start < f.place && f.end() <= claimed.end)
    })
}
