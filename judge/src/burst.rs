//! IEC 61937 bursts of AC-3, written from the words of their description and not from the port: a burst is 6,144 bytes, words
//! 0xF872 and 0x4E1F, data type 1 with bsmod in bits 8 to 10, the frame's length in bits, the frame, zeros; words go high byte first.
//!
//! The frame is parsed by `cut`, so its own refusals and the rows in the lent room are those of a parse. An answer is three numbers:
//! refusal (0: none), rows of the parse, bytes written to the output. A refusal writes no byte.

use crate::cut::{self, Summary};
use crate::layout::{row_at, BurstAnswer, ROW};
use crate::names::number;

/// Bytes of a burst.
pub const BURST: usize = 6144;
/// Bytes of the four words before the frame.
pub const WORDS: usize = 8;
/// The bits of the third word that hold bsmod.
pub const BSMOD: u16 = 0x0700;

pub const SHORT_OUTPUT: i32 = 28;
pub const NOT_A_BURST: i32 = 30;
pub const WRONG_WORDS: i32 = 31;
pub const WRONG_LENGTH: i32 = 32;
pub const NONZERO_AFTER: i32 = 33;
pub const OTHER_BSMOD: i32 = 34;

/// The two words of synchronisation and the data type of AC-3.
const SYNC: [u16; 2] = [0xF872, 0x4E1F];
const AC3: u16 = 1;

/// An accepted frame: the rows of its parse, its bytes, its bsmod.
struct Frame<'a> {
    rows: i32,
    bytes: &'a [u8],
    bsmod: u16,
}

/// The frame at `place`, or the answer of its refusal.
fn frame<'a>(capture: &'a [u8], place: usize, room: &mut [i32]) -> Result<Frame<'a>, BurstAnswer> {
    let parsed = cut::answer(capture, place, room);
    let rows = parsed.rows as i32;
    match parsed.verdict {
        Err(no) => Err([no.number as i32, rows, 0]),
        Ok(Summary { bytes: length, .. }) => {
            let bytes = &capture[place..place + length];
            // The three bits before acmod; the row of that name says the same.
            let bsmod = u16::from(bytes[5] & 7);
            let of_name = room
                .chunks(ROW)
                .find(|row| row[row_at::NAME] == number("bsmod"));
            assert_eq!(
                of_name.map(|row| row[row_at::VALUE]),
                Some(bsmod.into()),
                "bsmod's row"
            );
            Ok(Frame { rows, bytes, bsmod })
        }
    }
}

/// Word `i` of a burst.
fn word(burst: &[u8], i: usize) -> u16 {
    u16::from_be_bytes([burst[2 * i], burst[2 * i + 1]])
}

/// Writes the frame at byte `place` of `capture` as a burst into the front of `out`.
pub fn write(capture: &[u8], place: usize, room: &mut [i32], out: &mut [u8]) -> BurstAnswer {
    let frame = match frame(capture, place, room) {
        Ok(frame) => frame,
        Err(refused) => return refused,
    };
    if out.len() < BURST {
        return [SHORT_OUTPUT, frame.rows, 0];
    }
    let bits = 8 * frame.bytes.len() as u16;
    let mut burst = Vec::with_capacity(BURST);
    for word in [SYNC[0], SYNC[1], AC3 + 256 * frame.bsmod, bits] {
        burst.extend(word.to_be_bytes());
    }
    burst.extend(frame.bytes);
    burst.resize(BURST, 0);
    out[..BURST].copy_from_slice(&burst);
    [0, frame.rows, BURST as i32]
}

/// Writes the frame of `burst` into the front of `out`.
pub fn read(burst: &[u8], room: &mut [i32], out: &mut [u8]) -> BurstAnswer {
    if burst.len() != BURST {
        return [NOT_A_BURST, 0, 0];
    }
    if [word(burst, 0), word(burst, 1), word(burst, 2) & !BSMOD] != [SYNC[0], SYNC[1], AC3] {
        return [WRONG_WORDS, 0, 0];
    }
    let payload = &burst[WORDS..];
    let frame = match frame(payload, 0, room) {
        Ok(frame) => frame,
        Err(refused) => return refused,
    };
    let length = frame.bytes.len();
    let refusal = if usize::from(word(burst, 3)) != 8 * length {
        WRONG_LENGTH
    } else if payload[length..].iter().any(|byte| *byte != 0) {
        NONZERO_AFTER
    } else if word(burst, 2) >> 8 != frame.bsmod {
        OTHER_BSMOD
    } else if out.len() < length {
        SHORT_OUTPUT
    } else {
        out[..length].copy_from_slice(frame.bytes);
        return [0, frame.rows, length as i32];
    };
    [refusal, frame.rows, 0]
}
