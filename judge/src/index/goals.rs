//! What the captures and calls of the generator are to reach.

use super::again::{visits, Entailed, Runs, Visit};
use super::{Entry, NO_ROOM, NO_ROW, OTHER_ENTRY};
use crate::agree::Judge;
use crate::corners::MOST_ROWS;
use crate::cut::REFUSALS;
use crate::layout::{INDEXED, ROW};
use crate::pieces::SYNC;
use std::collections::BTreeMap;

/// Whether entries were given.
const WAYS: [&str; 2] = ["afresh", "extended"];

/// Which of the frames of the walk a room runs out at.
const WHICH: [&str; 4] = [
    "the only frame",
    "the first frame",
    "a middle frame",
    "the last frame",
];

/// Which other place of the walk.
const BESIDE: [&str; 5] = [
    "a place of a walk without frames",
    "a place before the first frame",
    "a place between frames",
    "a place after the last frame",
    "the place where the walk would end",
];

/// The numbers of an entry, each of which can be wrong by itself where the frame at the entry's place is accepted; but not the place.
const NUMBERS: [&str; INDEXED] = ["place", "length", "acmod", "dialnorm", "second dialnorm"];

/// The refusals that can hold as well where an earlier one is given.
const AS_WELL: [&str; 6] = [
    "56, 37 as well",
    "56, 55 as well",
    "56, 37 and 55 as well",
    "37, 55 as well before it in the walk",
    "37, 55 as well after it in the walk",
    "56 for want of rows at the last entry",
];

/// How a step of appending begins and ends.
const STEPS: [&str; 17] = [
    "cut inside a frame",
    "cut inside a header",
    "cut inside a gap",
    "cut at a frame's end",
    "nothing was there before",
    "nothing was appended",
    "no frame came",
    "one frame came",
    "several frames came",
    "a place refused with 1 becomes a frame",
    "a place refused with 4 becomes a frame",
    "a place refused with 1 is refused otherwise",
    "a place refused with 4 is refused otherwise",
    "a place refused with 1 is refused with 4",
    "a place refused with 1 stays so",
    "a place refused with 4 stays so",
    "a whole frame after the place where the walk ends",
];

/// Sizes of the index.
const SIZES: [&str; 5] = [
    "index: no number, and no frame to enter",
    "index: no number, and a frame to enter",
    "index: one number too few",
    "index: just enough",
    "index: a whole entry more",
];

/// What entries tell, beside acmod and levels.
const ENTRIES: [&str; 6] = [
    "frame of 128 bytes",
    "frame of 3,840 bytes",
    "frame of 4,067 rows",
    "a second dialnorm of 0 that is there",
    "a frame inside a frame as the last entry",
    "another number in an entry before the last",
];

fn short_of(refusal: usize, way: &str, at: &str) -> String {
    format!("{refusal} at {at}, {way}")
}

fn left_over(of: &str, numbers: usize, refusal: usize) -> String {
    format!("{of}: {numbers} numbers left over at answer {refusal}")
}

fn told(refusal: usize, way: &str) -> String {
    format!("answer {refusal} {way}")
}

fn at_last_entry(refusal: u32) -> String {
    format!("56: refusal {refusal} at the last entry's place")
}

fn wrong(what: &str) -> String {
    format!("56: another {what}")
}

fn in_a_gap(refusal: u32) -> String {
    format!("refusal {refusal} in a gap")
}

fn bytes_left(bytes: usize) -> String {
    format!("the walk ends with {bytes} bytes left")
}

/// What a run of the generator must reach.
pub fn required() -> Vec<String> {
    let mut goals: Vec<String> = Vec::new();
    for (entries, way) in WAYS.into_iter().enumerate() {
        goals.extend([0, NO_ROW, NO_ROOM].map(|refusal| told(refusal, way)));
        goals.extend(WHICH.map(|frame| short_of(NO_ROW, way, frame)));
        // The last place of a walk takes four rows at most, and a last entry more.
        let beside = BESIDE.iter().take(BESIDE.len() - entries);
        goals.extend(beside.map(|place| short_of(NO_ROW, way, place)));
        goals.extend(WHICH.map(|frame| short_of(NO_ROOM, way, frame)));
    }
    goals.push(told(OTHER_ENTRY, WAYS[1]));
    goals.extend(NUMBERS[1..].iter().map(|number| wrong(number)));
    goals.extend((1..=REFUSALS as u32).map(at_last_entry));
    goals.push("56: one entry more than the room holds".into());
    goals.push("56: more entries than can be counted".into());
    goals.extend(AS_WELL.map(String::from));
    goals.extend(STEPS.map(String::from));
    goals.extend(SIZES.map(String::from));
    goals.extend(ENTRIES.map(String::from));
    for refusal in [0, NO_ROOM, OTHER_ENTRY] {
        goals.extend((1..INDEXED).map(|n| left_over("index", n, refusal)));
    }
    for refusal in [0, NO_ROW] {
        goals.extend((1..ROW).map(|n| left_over("rows", n, refusal)));
    }
    goals.extend((0..8).map(|acmod| format!("acmod {acmod}")));
    for which in ["dialnorm", "second dialnorm"] {
        goals.extend((0..32).map(|level| format!("{which} {level}")));
    }
    let others = (2..=REFUSALS as u32).filter(|n| ![4, 7].contains(n));
    goals.extend(others.map(in_a_gap));
    goals.extend((0..6).map(bytes_left));
    goals.push("the walk ends with 6 bytes left or more".into());
    goals.push("packets lost".into());
    goals
}

/// A step of appending: the whole capture, where it ended before and where it ends now, how many entries there were, and those there are.
pub(super) struct Growth<'a> {
    pub capture: &'a [u8],
    pub before: usize,
    pub end: usize,
    pub given: usize,
    pub entries: &'a [usize],
}

/// How often each goal was reached.
#[derive(Default)]
pub struct Reached(pub BTreeMap<String, usize>);

impl Reached {
    pub fn add(&mut self, goal: impl Into<String>) {
        *self.0.entry(goal.into()).or_default() += 1;
    }

    fn add_if(&mut self, found: &[(&str, bool)]) {
        for (what, it_is) in found {
            if *it_is {
                self.add(*what);
            }
        }
    }

    /// What was to be reached and was not.
    pub fn missed(&self) -> Vec<String> {
        let mut goals = required();
        goals.retain(|goal| !self.0.contains_key(goal));
        goals
    }

    /// What a call reaches.
    pub(super) fn call(
        &mut self,
        capture: &[u8],
        before: &Runs,
        entries: usize,
        of: &Entailed,
        judge: &mut Judge,
    ) {
        let [refusal, _] = of.answer;
        let way = WAYS[usize::from(entries > 0)];
        self.add(told(refusal, way));
        let (numbers, length) = (before.room.len(), before.index.len());
        let held = length / INDEXED;
        if [0, NO_ROW].contains(&refusal) && numbers % ROW > 0 {
            self.add(left_over("rows", numbers % ROW, refusal));
        }
        if refusal != NO_ROW && length % INDEXED > 0 {
            self.add(left_over("index", length % INDEXED, refusal));
        }
        let rows = numbers / ROW;
        let frames: Vec<&Visit> = of.visits.iter().filter(|v| v.answer.is_ok()).collect();
        let in_all = entries + frames.len();
        match refusal {
            NO_ROW => {
                let mut walk = of.visits.iter();
                let visit = walk.find(|v| v.count() > rows).expect("in need");
                self.add(short_of(NO_ROW, way, which(&frames, visit)));
                let earlier = frames.iter().filter(|f| f.place < visit.place).count();
                if entries + earlier > held {
                    self.add(AS_WELL[3]);
                } else if in_all > held {
                    self.add(AS_WELL[4]);
                }
            }
            NO_ROOM => {
                let at = held - entries;
                self.add(short_of(NO_ROOM, way, of_several(at, frames.len())));
            }
            OTHER_ENTRY => self.other(capture, before, entries, of, judge),
            _ => self.accepted(&of.visits, capture),
        }
        let needed = in_all.saturating_mul(INDEXED);
        self.add_if(&[
            (SIZES[0], (refusal, length, in_all) == (0, 0, 0)),
            (SIZES[1], (refusal, length) == (NO_ROOM, 0)),
            (SIZES[2], refusal == NO_ROOM && length + 1 == needed),
            (SIZES[3], refusal == 0 && in_all > 0 && length == needed),
            (SIZES[4], refusal == 0 && length == needed + INDEXED),
        ]);
    }

    /// What a call reaches that is refused with 56.
    fn other(
        &mut self,
        capture: &[u8],
        before: &Runs,
        entries: usize,
        of: &Entailed,
        judge: &mut Judge,
    ) {
        let held = before.index.len() / INDEXED;
        let Some(last) = &of.last else {
            self.add_if(&[
                (
                    "56: one entry more than the room holds",
                    entries == held + 1,
                ),
                (
                    "56: more entries than can be counted",
                    entries.checked_mul(INDEXED).is_none(),
                ),
            ]);
            return;
        };
        let rows = before.room.len() / ROW;
        if last.count() > rows {
            self.add(at_last_entry(7));
            self.add_if(&[(AS_WELL[5], last.answer.is_ok())]);
            return;
        }
        let given = &before.index[INDEXED * (entries - 1)..INDEXED * entries];
        match last.answer {
            Err(refusal) => self.add(at_last_entry(refusal)),
            Ok(entry) => {
                let others = (0..INDEXED).filter(|at| entry[*at] != given[*at]);
                if let [at] = others.collect::<Vec<_>>()[..] {
                    self.add(wrong(NUMBERS[at]));
                }
            }
        }
        // What the walk from the given entry's end would have met.
        let from = given[0].checked_add(given[1]);
        let Some(from) = from.filter(|from| *from <= capture.len()) else {
            return;
        };
        let walk = visits(judge, capture, from);
        let no_row = walk.iter().any(|visit| visit.count() > rows);
        let frames = walk.iter().filter(|visit| visit.answer.is_ok()).count();
        let no_room = entries + frames > held;
        self.add_if(&[
            (AS_WELL[0], no_row && !no_room),
            (AS_WELL[1], no_room && !no_row),
            (AS_WELL[2], no_row && no_room),
        ]);
    }

    /// What an index that was made or extended reaches.
    fn accepted(&mut self, walk: &[Visit], capture: &[u8]) {
        for visit in walk {
            match visit.answer {
                Ok(entry) => self.entry(&entry, visit.count()),
                Err(refusal) if !visit.unsettled() => self.add(in_a_gap(refusal)),
                Err(_) => match capture.len().saturating_sub(visit.place) {
                    left @ 0..6 => self.add(bytes_left(left)),
                    _ => self.add("the walk ends with 6 bytes left or more"),
                },
            }
        }
    }

    fn entry(&mut self, entry: &Entry, rows: usize) {
        let [_, length, acmod, dialnorm, second] = *entry;
        self.add(format!("acmod {acmod}"));
        self.add(format!("dialnorm {dialnorm}"));
        if acmod == 0 {
            self.add(format!("second dialnorm {second}"));
        }
        self.add_if(&[
            (ENTRIES[0], length == 128),
            (ENTRIES[1], length == 3840),
            (ENTRIES[2], rows == MOST_ROWS),
            (ENTRIES[3], acmod == 0 && second == 0),
        ]);
    }

    /// What a step of appending reaches.
    pub(super) fn growth(&mut self, step: &Growth<'_>, judge: &mut Judge) {
        let Growth {
            capture,
            before,
            end,
            ..
        } = *step;
        let frames: Vec<&[usize]> = step.entries.chunks(INDEXED).collect();
        let came = frames.len() - step.given;
        let within = |first: usize, past: usize| {
            let inside = |f: &&[usize]| (f[0] + first..f[0] + past.min(f[1])).contains(&before);
            frames.iter().any(|f| inside(f))
        };
        let boundary = |f: &&[usize]| f[0] + f[1] == before;
        let in_frame = within(1, usize::MAX / 2);
        let last = frames.last().map_or(0, |f| f[0]);
        let grew = before < end;
        self.add_if(&[
            (STEPS[0], grew && within(6, usize::MAX / 2)),
            (STEPS[1], grew && within(1, 6)),
            (
                STEPS[2],
                grew && 0 < before && before < last && !in_frame && !frames.iter().any(boundary),
            ),
            (STEPS[3], grew && frames.iter().any(boundary)),
            (STEPS[4], grew && before == 0),
            (STEPS[5], !grew),
            (STEPS[6], grew && came == 0),
            (STEPS[7], came == 1),
            (STEPS[8], came > 1),
        ]);
        let from = match step.given {
            0 => 0,
            given => frames[given - 1][0] + frames[given - 1][1],
        };
        let ended = visits(judge, &capture[..before], from);
        let ended = ended.last().expect("a walk has an end");
        let now = Visit::at(judge, &capture[..end], ended.place);
        self.add_if(&match (ended.answer, now.answer) {
            (Err(1), Ok(_)) => [(STEPS[9], true)],
            (Err(4), Ok(_)) => [(STEPS[10], true)],
            (Err(1), Err(4)) => [(STEPS[13], true)],
            (Err(1), Err(1)) => [(STEPS[14], grew)],
            (Err(4), Err(4)) => [(STEPS[15], grew)],
            (Err(1), Err(_)) => [(STEPS[11], true)],
            (_, _) => [(STEPS[12], true)],
        });
        if grew && now.answer == Err(4) {
            let rest = &capture[..end];
            let mut places = ended.place + 1..end;
            let whole = places.any(|place| {
                rest[place..].starts_with(&SYNC) && Visit::at(judge, rest, place).answer.is_ok()
            });
            self.add_if(&[(STEPS[16], whole)]);
        }
    }
}

/// Which place of a walk it is.
fn which(frames: &[&Visit], visit: &Visit) -> &'static str {
    if let Some(at) = frames.iter().position(|f| f.place == visit.place) {
        return of_several(at, frames.len());
    }
    let first = frames.first().is_none_or(|f| visit.place < f.place);
    let last = frames.last().is_none_or(|f| f.place < visit.place);
    match (first, last) {
        _ if visit.unsettled() => BESIDE[4],
        (true, true) => BESIDE[0],
        (true, false) => BESIDE[1],
        (false, false) => BESIDE[2],
        (false, true) => BESIDE[3],
    }
}

fn of_several(at: usize, frames: usize) -> &'static str {
    match (at, frames - 1) {
        (0, 0) => WHICH[0],
        (0, _) => WHICH[1],
        (at, last) if at < last => WHICH[2],
        _ => WHICH[3],
    }
}
