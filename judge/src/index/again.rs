//! What a call must answer, derived a second time: each place that the walk comes to is parsed in ample room, entries are read off the bits
//! of the frames, and from the rows that each place takes follows what becomes of the call in the rooms that it has.

use super::{Entry, NO_ROOM, NO_ROW, OTHER_ENTRY};
use crate::agree::{untouched, Judge};
use crate::bits;
use crate::layout::{IndexAnswer, INDEXED, ROW};
use crate::tables::ac3_frame_words;

/// The two lent runs.
#[derive(Clone, Debug, PartialEq, Eq)]
pub struct Runs {
    pub room: Vec<i32>,
    pub index: Vec<usize>,
}

impl Runs {
    /// Before a call: so many numbers of room, and an index of so many, with these entries in it; marked so that whatever is touched shows.
    pub fn fresh(numbers: usize, length: usize, entries: &[usize]) -> Runs {
        // No place or length is so large.
        let mut index: Vec<usize> = (0..length).map(|i| usize::MAX - i).collect();
        index[..entries.len()].copy_from_slice(entries);
        Runs {
            room: (0..numbers).map(untouched).collect(),
            index,
        }
    }
}

/// A place that is parsed, and what the parse answers in ample room.
pub struct Visit {
    pub place: usize,
    pub rows: Vec<i32>,
    /// The frame's entry, or the refusal.
    pub answer: Result<Entry, u32>,
}

impl Visit {
    pub fn at(judge: &mut Judge, capture: &[u8], place: usize) -> Visit {
        let parsed = judge.ample(capture, place);
        let answer = match parsed.answer.verdict {
            Ok(_) => Ok(entry(place, &capture[place..])),
            Err(no) => Err(no.number),
        };
        Visit {
            place,
            rows: parsed.rows,
            answer,
        }
    }

    /// The rows that it takes.
    pub fn count(&self) -> usize {
        self.rows.len() / ROW
    }

    /// Would bytes that come after the capture change its answer?
    pub fn unsettled(&self) -> bool {
        matches!(self.answer, Err(1 | 4))
    }

    fn leave(&self, room: &mut [i32]) {
        let numbers = self.rows.len().min(room.len() / ROW * ROW);
        room[..numbers].copy_from_slice(&self.rows[..numbers]);
    }
}

/// The entry of an accepted frame, bit by bit of its header.
fn entry(place: usize, frame: &[u8]) -> Entry {
    let mut at = 32;
    let mut take = |width: usize| {
        let value = bits::get(frame, at, width) as usize;
        at += width;
        value
    };
    let (fscod, frmsizecod) = (take(2), take(6));
    let words = ac3_frame_words(fscod, frmsizecod).expect("a size");
    let _bsid_and_bsmod = take(8);
    let acmod = take(3);
    let mix_levels = match acmod {
        0 | 1 => 0,
        2 | 3 | 4 | 6 => 2,
        _ => 4,
    };
    take(mix_levels);
    let _lfeon = take(1);
    let dialnorm = take(5);
    let second = if acmod == 0 {
        // compr, langcod, then mixlevel and roomtyp, each if its flag says so.
        for width in [8, 8, 7] {
            if take(1) == 1 {
                take(width);
            }
        }
        take(5)
    } else {
        0
    };
    [place, 2 * words, acmod, dialnorm, second]
}

/// The places that a walk comes to from one on, up to the first that is refused with 1 or 4.
pub fn visits(judge: &mut Judge, capture: &[u8], from: usize) -> Vec<Visit> {
    let mut visits = Vec::new();
    let mut place = from;
    loop {
        let visit = Visit::at(judge, capture, place);
        let ended = visit.unsettled();
        place += visit.answer.map_or(1, |[_, length, ..]| length);
        visits.push(visit);
        if ended {
            return visits;
        }
    }
}

/// What becomes of a call.
pub struct Entailed {
    /// What parsing at the last entry's place answers, if it was parsed.
    pub last: Option<Visit>,
    /// The walk after it; none at 56.
    pub visits: Vec<Visit>,
    pub answer: IndexAnswer,
    pub runs: Runs,
}

/// What a call must answer and leave, by what it is lent.
pub fn entailed(judge: &mut Judge, capture: &[u8], before: &Runs, entries: usize) -> Entailed {
    let mut runs = before.clone();
    let held = before.index.len() / INDEXED;
    let rows = before.room.len() / ROW;
    let mut entailed = Entailed {
        last: None,
        visits: Vec::new(),
        answer: [OTHER_ENTRY, entries],
        runs: before.clone(),
    };
    if entries > held {
        return entailed;
    }
    let mut from = 0;
    if entries > 0 {
        let given = &before.index[INDEXED * (entries - 1)..INDEXED * entries];
        let last = Visit::at(judge, capture, given[0]);
        last.leave(&mut runs.room);
        let same = last.answer.is_ok_and(|entry| entry == *given) && last.count() <= rows;
        entailed.last = Some(last);
        if !same {
            entailed.runs = runs;
            return entailed;
        }
        from = given[0] + given[1];
    }
    let visits = visits(judge, capture, from);
    let in_need = visits.iter().position(|visit| visit.count() > rows);
    let parsed = in_need.map_or(visits.len(), |at| at + 1);
    let walked = &visits[..parsed];
    walked.iter().for_each(|visit| visit.leave(&mut runs.room));
    let frames = visits.iter().filter_map(|visit| visit.answer.ok());
    let numbers: Vec<usize> = frames.flatten().collect();
    let (begin, end) = (INDEXED * entries, INDEXED * entries + numbers.len());
    entailed.answer = match (in_need, end / INDEXED <= held) {
        (Some(_), _) => [NO_ROW, entries],
        (None, false) => [NO_ROOM, entries],
        (None, true) => {
            runs.index[begin..end].copy_from_slice(&numbers);
            [0, end / INDEXED]
        }
    };
    entailed.visits = visits;
    entailed.runs = runs;
    entailed
}
