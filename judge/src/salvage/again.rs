//! What a salvage must answer, derived a second time. A walk with ample rooms tells which places are parsed, with which rows, and where the
//! frames stand. From that follows, for any rooms, which check of which place is the first that fails, and what is written before it.

use crate::agree::{untouched, Judge};
use crate::burst_cases::marked;
use crate::cut::Summary;
use crate::layout::{SalvageAnswer, ENTRY, ROW};
use crate::salvage::{FRAME, GAP, NO_ENTRY, NO_OUTPUT, NO_ROW};

/// How much is lent: numbers of room, numbers of the list, bytes of output.
#[derive(Clone, Copy, Debug, PartialEq, Eq)]
pub struct Lent {
    pub numbers: usize,
    pub list: usize,
    pub bytes: usize,
}

/// The three lent runs.
#[derive(Clone, Debug, PartialEq, Eq)]
pub struct Runs {
    pub room: Vec<i32>,
    pub list: Vec<usize>,
    pub out: Vec<u8>,
}

impl Runs {
    /// As they are before a call, marked so that whatever is touched shows.
    pub fn fresh(lent: Lent) -> Runs {
        Runs {
            room: (0..lent.numbers).map(untouched).collect(),
            // No kind, place or length is so large.
            list: (0..lent.list).map(|i| usize::MAX - i).collect(),
            out: (0..lent.bytes).map(marked).collect(),
        }
    }

    pub fn lent(&self) -> Lent {
        Lent {
            numbers: self.room.len(),
            list: self.list.len(),
            bytes: self.out.len(),
        }
    }
}

/// The checks at one place, in their order.
#[derive(Clone, Copy, Debug, PartialEq, Eq, PartialOrd, Ord)]
pub(super) enum Check {
    /// An entry for the gap before the place.
    Gap,
    /// The rows of the parse.
    Rows,
    /// An entry for the frame.
    Entry,
    /// Room in the output.
    Output,
}

impl Check {
    pub fn refusal(self) -> usize {
        match self {
            Check::Gap | Check::Entry => NO_ENTRY,
            Check::Rows => NO_ROW,
            Check::Output => NO_OUTPUT,
        }
    }
}

/// Where a walk ends too early: the check that fails at the place. The last gap's place is the capture's end.
pub(super) type Stop = (usize, Check);

/// A place that a walk parses, and what the parse answers in ample room.
pub(super) struct Visit {
    pub place: usize,
    pub rows: Vec<i32>,
    /// The frame's length, or the refusal.
    pub answer: Result<usize, u32>,
}

impl Visit {
    pub fn count(&self) -> usize {
        self.rows.len() / ROW
    }
}

#[derive(Clone, Copy, Debug, PartialEq, Eq)]
pub(super) struct Entry {
    pub kind: usize,
    pub place: usize,
    pub length: usize,
}

impl Entry {
    pub fn end(&self) -> usize {
        self.place + self.length
    }

    /// The entry is written if the walk gets past this.
    fn last_check(&self) -> Stop {
        match self.kind {
            FRAME => (self.place, Check::Output),
            _ => (self.end(), Check::Gap),
        }
    }
}

/// What a walk with ample rooms meets.
pub(super) struct Walk<'a> {
    pub capture: &'a [u8],
    pub visits: Vec<Visit>,
    pub frames: Vec<Entry>,
}

impl<'a> Walk<'a> {
    pub fn new(judge: &mut Judge, capture: &'a [u8]) -> Self {
        let mut visits = Vec::new();
        let mut place = 0;
        while place < capture.len() {
            let parsed = judge.ample(capture, place);
            let answer = match parsed.answer.verdict {
                Ok(Summary { bytes, .. }) => Ok(bytes),
                Err(no) => Err(no.number),
            };
            visits.push(Visit {
                place,
                rows: parsed.rows,
                answer,
            });
            place += answer.unwrap_or(1);
        }
        let frame = |visit: &Visit| {
            Some(Entry {
                kind: FRAME,
                place: visit.place,
                length: visit.answer.ok()?,
            })
        };
        let frames = visits.iter().filter_map(frame).collect();
        Walk {
            capture,
            visits,
            frames,
        }
    }

    /// The bytes up to `end` in frames and what lies between them.
    pub fn entries_to(&self, end: usize) -> Vec<Entry> {
        let mut entries = Vec::new();
        let mut covered = 0;
        let gap = |place: usize, end: usize| {
            (place < end).then(|| Entry {
                kind: GAP,
                place,
                length: end - place,
            })
        };
        for frame in self.frames.iter().filter(|frame| frame.place < end) {
            entries.extend(gap(covered, frame.place));
            entries.push(*frame);
            covered = frame.end();
        }
        entries.extend(gap(covered, end));
        entries
    }

    pub fn entries(&self) -> Vec<Entry> {
        self.entries_to(self.capture.len())
    }

    /// What is needed, and no number or byte more.
    pub fn need(&self) -> Lent {
        Lent {
            numbers: ROW * self.visits.iter().map(Visit::count).max().unwrap_or(0),
            list: ENTRY * self.entries().len(),
            bytes: self.frames.iter().map(|frame| frame.length).sum(),
        }
    }

    /// The first check that fails in these rooms, and what a call must answer and leave.
    pub fn entailed(&self, lent: Lent) -> (Option<Stop>, SalvageAnswer, Runs) {
        let rows = lent.numbers / ROW;
        let in_need = self.visits.iter().find(|visit| visit.count() > rows);
        let end = in_need.map_or(self.capture.len(), |visit| visit.place);
        let entries = self.entries_to(end);
        let unlisted = entries
            .get(lent.list / ENTRY)
            .map(|entry| match entry.kind {
                FRAME => (entry.place, Check::Entry),
                _ => (entry.end(), Check::Gap),
            });
        let mut bytes = 0;
        let unwritten = self.frames.iter().find(|frame| {
            bytes += frame.length;
            bytes > lent.bytes
        });
        let stops = [
            in_need.map(|visit| (visit.place, Check::Rows)),
            unlisted,
            unwritten.map(|frame| (frame.place, Check::Output)),
        ];
        let stop = stops.into_iter().flatten().min();

        let mut runs = Runs::fresh(lent);
        let parsed = |visit: &&Visit| stop.is_none_or(|(place, _)| visit.place <= place);
        for visit in self.visits.iter().filter(parsed) {
            let numbers = ROW * visit.count().min(rows);
            runs.room[..numbers].copy_from_slice(&visit.rows[..numbers]);
        }
        let written = |entry: &&Entry| stop.is_none_or(|stop| entry.last_check() < stop);
        let (mut list, mut out) = (Vec::new(), Vec::new());
        for entry in entries.iter().filter(written) {
            list.extend([entry.kind, entry.place, entry.length]);
            if entry.kind == FRAME {
                out.extend(&self.capture[entry.place..entry.end()]);
            }
        }
        runs.list[..list.len()].copy_from_slice(&list);
        runs.out[..out.len()].copy_from_slice(&out);
        let refusal = stop.map_or(0, |(_, check)| check.refusal());
        (stop, [refusal, list.len() / ENTRY, out.len()], runs)
    }
}
