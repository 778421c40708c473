//! An index beside a capture, written from the words of its description and not from the port: for each frame that salvage's walk meets
//! before the first place refused with 1 or 4, in order, its place, length, acmod and one or two dialnorms, with 0 for an absent second.
//!
//! An index is made afresh (no entries are there), or extended after bytes were appended to its capture: then the last entry is held
//! against what parsing gives at its place, and the walk goes on from its end. An answer is two numbers: refusal (0: none), entries. The
//! refusals, in this order: 56 parsing at the last entry's place does not give that entry, or more entries are given than the room holds;
//! 37 a place of the walk where parsing answers 7; 55 an entry of the walk for which the index has no room. On a refusal no number of the
//! index is touched, and the entries told are those given.
//!
//! Every place is parsed by `cut`, so the numbers of the lent room are left as those parses, in order, leave them.

pub mod again;
pub mod cases;
pub mod goals;

use crate::cut::{self, Summary};
use crate::layout::{row_at, IndexAnswer, INDEXED, ROW};
use crate::names::number;

pub const NO_ROW: usize = 37;
pub const NO_ROOM: usize = 55;
pub const OTHER_ENTRY: usize = 56;

/// What a parse answers where no row is left, and where bytes that come later can change the answer.
const NO_ROW_LEFT: u32 = 7;
const UNSETTLED: [u32; 2] = [1, 4];

/// An entry: place, length, acmod, dialnorm, second dialnorm or 0.
pub type Entry = [usize; INDEXED];

/// The value of a frame's field, or 0 where it has none of the name.
fn value(rows: &[i32], name: &str) -> usize {
    let mut named = rows.chunks(ROW).filter(|r| r[row_at::NAME] == number(name));
    named.next().map_or(0, |row| row[row_at::VALUE] as usize)
}

/// The entry of an accepted frame.
fn entry(place: usize, summary: &Summary, rows: &[i32]) -> Entry {
    [
        place,
        summary.bytes,
        summary.acmod.into(),
        value(rows, "dialnorm"),
        value(rows, "dialnorm2"),
    ]
}

/// What parsing at a place gives: the entry of the frame there, or the refusal.
fn parsed(capture: &[u8], place: usize, room: &mut [i32]) -> Result<Entry, u32> {
    let answer = cut::answer(capture, place, room);
    match answer.verdict {
        Ok(summary) => Ok(entry(place, &summary, &room[..ROW * answer.rows])),
        Err(no) => Err(no.number),
    }
}

/// The entries that the walk meets from the place on.
fn walk(capture: &[u8], mut place: usize, room: &mut [i32]) -> Result<Vec<Entry>, usize> {
    let mut met = Vec::new();
    loop {
        match parsed(capture, place, room) {
            Ok(entry) => {
                place += entry[1];
                met.push(entry);
            }
            Err(NO_ROW_LEFT) => return Err(NO_ROW),
            Err(refusal) if UNSETTLED.contains(&refusal) => return Ok(met),
            Err(_) => place += 1,
        }
    }
}

/// The entries that come to those given, or the refusal.
fn added(
    capture: &[u8],
    room: &mut [i32],
    index: &[usize],
    entries: usize,
) -> Result<Vec<Entry>, usize> {
    let held: Vec<&[usize]> = index.chunks_exact(INDEXED).collect();
    if entries > held.len() {
        return Err(OTHER_ENTRY);
    }
    let from = match held[..entries].last() {
        None => 0,
        Some(last) => match parsed(capture, last[0], room) {
            Ok(entry) if entry == *last => entry[0] + entry[1],
            _ => return Err(OTHER_ENTRY),
        },
    };
    let met = walk(capture, from, room)?;
    if entries + met.len() > held.len() {
        return Err(NO_ROOM);
    }
    Ok(met)
}

/// Makes an index of `capture` (no `entries` are there), or extends the one whose `entries` are there, with `room` for the rows of a parse.
pub fn index(capture: &[u8], room: &mut [i32], index: &mut [usize], entries: usize) -> IndexAnswer {
    match added(capture, room, index, entries) {
        Err(refusal) => [refusal, entries],
        Ok(met) => {
            let numbers = met.concat();
            index[INDEXED * entries..][..numbers.len()].copy_from_slice(&numbers);
            [0, entries + met.len()]
        }
    }
}
