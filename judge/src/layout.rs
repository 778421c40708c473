//! How rows and answers are laid out as numbers (docs/FORMAT.md): how many there are, and which stands where. No other file of
//! the judge says it.

use crate::cut::blocks::SLOTS;
use crate::names::{number, role_numbers};
use crate::syntax::Field;

/// The numbers of a row.
pub const ROW: usize = 9;

/// Which number of a row is which.
pub mod row_at {
    pub const NAME: usize = 0;
    pub const ROLE: usize = 1;
    pub const PROGRAMME: usize = 2;
    pub const BLOCK: usize = 3;
    pub const INDEX: usize = 4;
    pub const POS: usize = 5;
    pub const WIDTH: usize = 6;
    pub const VALUE: usize = 7;
    /// The band, group or segment, from 0.
    pub const PART: usize = 8;
}

/// The part of a row that is none of several.
pub const NO_PART: i32 = -1;

/// A field as a row, with the part that it is: the original's fields do not tell it.
pub fn row(field: &Field, part: i32) -> [i32; ROW] {
    let mut row = [0; ROW];
    row[row_at::NAME] = number(field.name);
    (row[row_at::ROLE], row[row_at::PROGRAMME]) = role_numbers(field.role);
    row[row_at::BLOCK] = field.block.into();
    row[row_at::INDEX] = field.index.into();
    row[row_at::POS] = field.pos as i32;
    row[row_at::WIDTH] = field.width as i32;
    row[row_at::VALUE] = field.value as i32;
    row[row_at::PART] = part;
    row
}

/// The numbers of an answer.
pub const ANSWER: usize = answer_at::MANTISSA_BITS + 6 * SLOTS;

/// Which number of an answer is which.
pub mod answer_at {
    pub const REFUSAL: usize = 0;
    pub const ROWS: usize = 1;
    pub const BIT: usize = 2;
    /// From here up to `NAME`, and from `MANTISSA_BITS` on, the numbers are an accepted frame's summary, all 0 on a refusal. The first is
    /// the row count again.
    pub const SUMMARY: usize = 3;
    pub const BYTES: usize = 4;
    pub const AUDIO_END: usize = 5;
    pub const BSID: usize = 6;
    pub const ACMOD: usize = 7;
    pub const LFEON: usize = 8;
    pub const FSCOD: usize = 9;
    pub const CPL_BLOCKS: usize = 10;
    /// One for each block, as the mantissas'.
    pub const BLOCK_STARTS: usize = 11;
    pub const MANTISSA_STARTS: usize = 17;
    pub const COORDINATES_SENT: usize = 23;
    /// Name and block of what did not fit, at refusal 6; 0 and -1 for every other answer, an accepted frame's too.
    pub const NAME: usize = 24;
    pub const BLOCK: usize = 25;
    /// The bits of the mantissas of each slot of block 0, then of block 1, and so on.
    pub const MANTISSA_BITS: usize = 26;
}

/// Which numbers of an answer are an accepted frame's summary, in their order.
pub fn summary() -> impl Iterator<Item = usize> {
    (answer_at::SUMMARY..answer_at::NAME).chain(answer_at::MANTISSA_BITS..ANSWER)
}

/// The numbers of an answer about the header.
pub const HEADER_ANSWER: usize = 10;

/// Which number of an answer about the header is which.
pub mod header_at {
    pub const REFUSAL: usize = 0;
    pub const ROWS: usize = 1;
    pub const BIT: usize = 2;
    /// Name and block of what did not fit, as in a whole answer.
    pub const NAME: usize = 3;
    pub const BLOCK: usize = 4;
    /// From here on the numbers are all 0 on a refusal.
    pub const BYTES: usize = 5;
    pub const BSID: usize = 6;
    pub const ACMOD: usize = 7;
    pub const LFEON: usize = 8;
    pub const FSCOD: usize = 9;
}

pub type HeaderAnswer = [i32; HEADER_ANSWER];

/// An answer about a burst: its numbers are refusal, rows of the parse, bytes written.
pub type BurstAnswer = [i32; 3];

/// An answer about a salvage: its numbers are refusal, entries of the list, bytes written.
pub type SalvageAnswer = [usize; 3];

/// The numbers of an entry of a salvage's list: kind, place, length.
pub const ENTRY: usize = 3;

/// An answer about an AHT section: refusal, the bit after it, tags.
pub type AhtAnswer = [usize; 3];

/// An answer about the profile: refusal, rows of the parse, the first broken rule (0: none), the row that breaks it.
pub type ProfileAnswer = [i32; 4];

/// An answer about a packed listing, either way: refusal, bytes written.
pub type PackAnswer = [usize; 2];

/// An answer about a level correction: refusal, rows of the parse, changes.
pub type LevelAnswer = [i32; 3];

/// The numbers of a change: name, old value, new value.
pub const CHANGE: usize = 3;

/// The list of changes: at most crc1, one level, crcrsv and crc2.
pub type Changes = [i32; 4 * CHANGE];

/// An answer about an index: refusal, entries.
pub type IndexAnswer = [usize; 2];

/// The numbers of an entry of an index: place, length, acmod, dialnorm, second dialnorm or 0.
pub const INDEXED: usize = 5;
