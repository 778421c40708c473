//! Header and blocks apart, from the words of their description and not from the port: the published parser cut in two after addbsi.
//!
//! `header` answers ten numbers: refusal (0: none), rows, the first bit not yet read, name and block of what did not fit, frame bytes,
//! bsid, acmod, lfeon, fscod; the last five are 0 on a refusal. `blocks` is given ten such numbers and trusts none of them: it makes an
//! answer of its own from the same capture, place and room. Any difference, or a refusal, is 24, and no number of the room is touched. Else
//! the header's rows are written afresh and the blocks follow.

use crate::cut::{ac3, no, Answer, Bytes, Cursor, Unfit};
use crate::layout::{header_at, HeaderAnswer, ANSWER, HEADER_ANSWER};

/// The header answer does not fit the input.
pub const OTHER_HEADER: u32 = 24;

/// The most rows and the most bits that a header has: two programmes, bsid 6, everything sent, 64 bytes of addbsi. (tests/apart.rs counts.)
pub const MOST_ROWS: i32 = 41;
pub const LONGEST: i32 = 665;

fn cursor<'a>(capture: &'a [u8], place: usize, room: &'a mut [i32]) -> Cursor<'a, Bytes<'a>> {
    Cursor::new(Bytes(capture.get(place..).unwrap_or(&[])), room)
}

/// Reads the header of the frame at byte `place` of `capture` into the lent `room`.
pub fn header(capture: &[u8], place: usize, room: &mut [i32]) -> HeaderAnswer {
    let mut cur = cursor(capture, place, room);
    let verdict = ac3::header(&mut cur);
    let mut numbers = [0; HEADER_ANSWER];
    numbers[header_at::ROWS] = cur.count as i32;
    numbers[header_at::BIT] = cur.pos as i32;
    let unfit = verdict.as_ref().map_or_else(|no| no.unfit, |_| Unfit::NONE);
    numbers[header_at::NAME] = unfit.name;
    numbers[header_at::BLOCK] = unfit.block;
    match verdict {
        Err(no) => numbers[header_at::REFUSAL] = no.number as i32,
        Ok(header) => {
            numbers[header_at::BYTES] = header.bytes as i32;
            numbers[header_at::BSID] = header.bsid.into();
            numbers[header_at::ACMOD] = header.acmod.into();
            numbers[header_at::LFEON] = header.lfeon.into();
            numbers[header_at::FSCOD] = header.fscod as i32;
        }
    }
    numbers
}

/// Parses the frame at byte `place` of `capture` into the lent `room`, if `given` is what `header` answers to the same call.
pub fn blocks(
    capture: &[u8],
    place: usize,
    room: &mut [i32],
    given: &HeaderAnswer,
) -> [i32; ANSWER] {
    let own = header(capture, place, &mut room.to_vec());
    if own != *given || given[header_at::REFUSAL] != 0 {
        let other = Answer {
            rows: 0,
            bit: 0,
            verdict: no(OTHER_HEADER, "another header"),
        };
        return other.numbers();
    }
    let mut cur = cursor(capture, place, room);
    let verdict = ac3::header(&mut cur).and_then(|header| ac3::blocks(&mut cur, header));
    let answer = Answer {
        rows: cur.count,
        bit: cur.pos,
        verdict,
    };
    answer.numbers()
}
