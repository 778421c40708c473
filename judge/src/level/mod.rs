//! Level correction in the frame, written from the words of its description and not from the port: the level, then crc1, then crc2, which
//! crcrsv keeps from being the sync word.
//!
//! The frame is parsed by `cut`, once and before the change, so refusals and rows are those of a parse. An answer is three numbers: refusal
//! (0: none), rows of the parse, changes; a change is name, old value, new value. The register divides bit by bit, as one does on paper: a
//! register of zero means that the bits, as a polynomial, have x^16 + x^15 + x^2 + 1 as a factor.

pub mod cases;

use crate::bits;
use crate::cut;
use crate::layout::{row_at, Changes, LevelAnswer, CHANGE, ROW};
use crate::names::number;

/// Refusals: the programme is absent, the level is outside 1 to 31, the audio ends too late for what stands behind it.
pub const ABSENT: i32 = 50;
pub const OUTSIDE: i32 = 51;
pub const NO_TAIL: i32 = 52;

/// The names of the two fields that parsing does not read.
pub const CRCRSV: i32 = 112;
pub const CRC2: i32 = 113;

/// What crc2 must not be.
pub const SYNC: u32 = 0x0B77;

/// auxdatae, crcrsv and crc2.
pub const TAIL: usize = 18;

const GENERATOR: u32 = 1 << 16 | 1 << 15 | 1 << 2 | 1;

/// The register after one bit more.
pub fn on(register: u32, bit: u32) -> u32 {
    let longer = register << 1 | bit;
    if longer >> 16 == 1 {
        longer ^ GENERATOR
    } else {
        longer
    }
}

/// The register before that bit: no other one gives this.
pub fn back(register: u32, bit: u32) -> u32 {
    let longer = register ^ bit;
    let even = if longer % 2 == 1 {
        longer ^ GENERATOR
    } else {
        longer
    };
    even >> 1
}

/// The bits of a frame.
fn run(frame: &[u8], from: usize, to: usize) -> impl DoubleEndedIterator<Item = u32> + '_ {
    (from..to).map(|at| bits::get(frame, at, 1))
}

/// The register after these bits, from zero.
pub fn register(frame: &[u8], from: usize, to: usize) -> u32 {
    run(frame, from, to).fold(0, on)
}

/// The bit at which the first five eighths end: half the words plus an eighth, each rounded down.
pub fn five_eighths(bytes: usize) -> usize {
    let words = bytes / 2;
    16 * (words / 2 + words / 8)
}

/// The crc1 that fits: what the register must be before the bits behind it for zero to be after them. Sixteen bits are themselves in a
/// register that was zero.
pub fn crc1(frame: &[u8]) -> u32 {
    run(frame, 32, five_eighths(frame.len()))
        .rev()
        .fold(0, back)
}

/// The crc2 that fits: what a crc2 of zero leaves in the register.
pub fn crc2(frame: &[u8]) -> u32 {
    let before = register(frame, 16, 8 * frame.len() - 16);
    (0..16).fold(before, |register, _| on(register, 0))
}

/// The fields that may change: name, position, width, in frame order.
type Field = (i32, usize, usize);

fn fields(frame: &[u8], level: Field) -> [Field; 4] {
    let end = 8 * frame.len();
    [
        (number("crc1"), 16, 16),
        level,
        (CRCRSV, end - 17, 1),
        (CRC2, end - 16, 16),
    ]
}

/// Writes the level into a frame, then crc1, then crc2.
fn mend(frame: &mut [u8], (_, at, width): Field, level: u32) {
    let end = 8 * frame.len();
    bits::set(frame, at, width, level);
    let first = crc1(frame);
    bits::set(frame, 16, 16, first);
    assert_eq!(register(frame, 16, five_eighths(frame.len())), 0, "crc1");
    if crc2(frame) == SYNC {
        let flipped = 1 - bits::get(frame, end - 17, 1);
        bits::set(frame, end - 17, 1, flipped);
    }
    let second = crc2(frame);
    bits::set(frame, end - 16, 16, second);
    assert_eq!(register(frame, 16, end), 0, "crc2");
    assert_ne!(second, SYNC);
}

/// Corrects the level of a programme, counted from 1, in the frame at byte `place` of `capture`.
pub fn correct(
    capture: &mut [u8],
    place: usize,
    programme: usize,
    level: usize,
    room: &mut [i32],
    changes: &mut Changes,
) -> LevelAnswer {
    let parsed = cut::answer(capture, place, room);
    let rows = parsed.rows as i32;
    let summary = match parsed.verdict {
        Err(no) => return [no.number as i32, rows, 0],
        Ok(summary) => summary,
    };
    // A frame of one programme has no row of the second one's level.
    let named = match programme {
        1 => number("dialnorm"),
        2 => number("dialnorm2"),
        _ => return [ABSENT, rows, 0],
    };
    let mut each = room[..ROW * parsed.rows].chunks(ROW);
    let Some(row) = each.find(|row| row[row_at::NAME] == named) else {
        return [ABSENT, rows, 0];
    };
    if !(1..=31).contains(&level) {
        return [OUTSIDE, rows, 0];
    }
    if summary.audio_end + TAIL > 8 * summary.bytes {
        return [NO_TAIL, rows, 0];
    }
    let field = (
        named,
        row[row_at::POS] as usize,
        row[row_at::WIDTH] as usize,
    );
    let frame = &mut capture[place..place + summary.bytes];
    let fields = fields(frame, field);
    let values = |frame: &[u8]| fields.map(|(_, at, width)| bits::get(frame, at, width) as i32);
    let old = values(frame);
    mend(frame, field, level as u32);
    let new = values(frame);
    let mut count = 0;
    for (i, (name, _, _)) in fields.iter().enumerate() {
        if old[i] != new[i] {
            changes[CHANGE * count..][..CHANGE].copy_from_slice(&[*name, old[i], new[i]]);
            count += 1;
        }
    }
    [0, rows, count as i32]
}
