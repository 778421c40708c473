//! Salvage of a broken capture, written from the words of its description and not from the port: the walk begins at byte 0; where a frame
//! is accepted it is copied, listed and passed over; elsewhere the walk moves one byte; what lies between frames is a gap. A place where
//! parsing answers 7 stops the walk.
//!
//! Every place is parsed by `cut`, so the numbers of the lent room are left as those parses, in order, leave them. An answer is three
//! numbers: refusal (0: none), entries of the list, bytes written to the output.

pub mod again;
pub mod cases;
pub mod goals;

use crate::cut;
use crate::layout::{SalvageAnswer, ENTRY};

pub const NO_OUTPUT: usize = 35;
pub const NO_ENTRY: usize = 36;
pub const NO_ROW: usize = 37;

/// The kinds of an entry.
pub const FRAME: usize = 0;
pub const GAP: usize = 1;

/// What a parse answers where no row is left.
const NO_ROW_LEFT: u32 = 7;

/// The list and the output, and how much of each is written.
struct Written<'a> {
    list: &'a mut [usize],
    entries: usize,
    out: &'a mut [u8],
    bytes: usize,
}

impl Written<'_> {
    /// The next entry of the list, if one is left.
    fn entry(&mut self) -> Result<&mut [usize], usize> {
        let at = ENTRY * self.entries;
        self.list.get_mut(at..at + ENTRY).ok_or(NO_ENTRY)
    }

    fn enter(&mut self, kind: usize, place: usize, length: usize) -> Result<(), usize> {
        self.entry()?.copy_from_slice(&[kind, place, length]);
        self.entries += 1;
        Ok(())
    }

    /// The bytes from `first` up to `end` as a gap, if there are any.
    fn gap(&mut self, first: usize, end: usize) -> Result<(), usize> {
        match end - first {
            0 => Ok(()),
            length => self.enter(GAP, first, length),
        }
    }

    /// An accepted frame: it is listed only if it is written.
    fn frame(&mut self, place: usize, frame: &[u8]) -> Result<(), usize> {
        self.entry()?;
        let end = self.bytes + frame.len();
        let room = self.out.get_mut(self.bytes..end).ok_or(NO_OUTPUT)?;
        room.copy_from_slice(frame);
        self.bytes = end;
        self.enter(FRAME, place, frame.len())
    }
}

fn walk(capture: &[u8], room: &mut [i32], written: &mut Written<'_>) -> Result<(), usize> {
    // Where the next byte to be parsed stands, and where the gap before it begins.
    let (mut place, mut first) = (0, 0);
    while place < capture.len() {
        match cut::answer(capture, place, room).verdict {
            Ok(summary) => {
                written.gap(first, place)?;
                let end = place + summary.bytes;
                written.frame(place, &capture[place..end])?;
                (place, first) = (end, end);
            }
            Err(no) if no.number == NO_ROW_LEFT => {
                written.gap(first, place)?;
                return Err(NO_ROW);
            }
            Err(_) => place += 1,
        }
    }
    written.gap(first, capture.len())
}

/// Goes through `capture`, with `room` for the rows of a parse: the accepted frames, one after the other, into the front of `out`; frames
/// and gaps into `list`.
pub fn salvage(
    capture: &[u8],
    room: &mut [i32],
    list: &mut [usize],
    out: &mut [u8],
) -> SalvageAnswer {
    let mut written = Written {
        list,
        entries: 0,
        out,
        bytes: 0,
    };
    let refusal = walk(capture, room, &mut written).err().unwrap_or(0);
    [refusal, written.entries, written.bytes]
}
