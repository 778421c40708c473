//! How the archive lays out its numbers (docs/FORMAT.md): how many a row and an answer have, and which stands where. No other file of the
//! crate says it; compare/ and the tests take it from here, and tests/documents.rs holds c/ferrysprig.h to it.

/// The numbers of a row: a room of this many numbers holds one.
pub const ROW_NUMBERS: usize = 9;

/// Which number of a row is which.
pub mod row_at {
    pub const NAME: usize = 0;
    pub const ROLE: usize = 1;
    pub const PROGRAMME: usize = 2;
    pub const BLOCK: usize = 3;
    pub const INDEX: usize = 4;
    pub const POSITION: usize = 5;
    pub const WIDTH: usize = 6;
    pub const VALUE: usize = 7;
    /// Which band, group or segment, from 0.
    pub const PART: usize = 8;
}

/// The part of a row whose name has none.
pub const NO_PART: i32 = -1;

pub type Row = [i32; ROW_NUMBERS];

/// Rows that no frame exceeds (proved: crates/ac3/specs/RowBound.antt; some frames have so many). With room for them, refusal 7 is not
/// given.
pub const MOST_ROWS: usize = 4067;

/// Rows that no header exceeds (proved: crates/ac3/specs/Apart.antt; the longest has three fewer). With room for them, a header is not
/// refused with 7.
pub const MOST_HEADER_ROWS: usize = 44;

/// Bytes that no frame exceeds.
pub const MOST_BYTES: usize = 3840;

/// Bytes that every frame has.
pub const LEAST_BYTES: usize = 128;

/// The slots of a block's mantissas: channels 0 to 4, coupling, LFE.
pub const SLOTS: usize = 7;

/// Which slot is which, beside the channels.
pub mod slot {
    /// The coupling channel.
    pub const COUPLING: usize = 5;
    /// The LFE channel.
    pub const LFE: usize = 6;
}

/// The numbers of an answer.
pub const ANSWER_NUMBERS: usize = 68;

/// Which number of an answer is which. (Number 3, the first of an accepted frame's summary, is the count of rows again.)
pub mod answer_at {
    /// 0 if the frame was accepted.
    pub const REFUSAL: usize = 0;
    /// How many rows were written.
    pub const ROWS: usize = 1;
    /// The first bit not yet read.
    pub const BIT: usize = 2;
    pub const BYTES: usize = 4;
    pub const AUDIO_END: usize = 5;
    pub const BSID: usize = 6;
    pub const ACMOD: usize = 7;
    pub const LFEON: usize = 8;
    pub const FSCOD: usize = 9;
    pub const CPL_BLOCKS: usize = 10;
    /// One for each block, as the mantissas'.
    pub const BLOCK_STARTS: usize = 11;
    pub const MANTISSA_STARTS: usize = 17;
    pub const COORDINATES_SENT: usize = 23;
    /// Name and block of what did not fit, at refusal 6; else 0 and -1.
    pub const NAME: usize = 24;
    pub const BLOCK: usize = 25;
    /// `SLOTS` for each block.
    pub const MANTISSA_BITS: usize = 26;
}

pub type Answer = [i32; ANSWER_NUMBERS];

/// The numbers of an answer about a header.
pub const HEADER_ANSWER_NUMBERS: usize = 10;

/// Which number of an answer about a header is which.
pub mod header_answer_at {
    /// 0 if the header was read.
    pub const REFUSAL: usize = 0;
    /// How many rows were written.
    pub const ROWS: usize = 1;
    /// The first bit not yet read.
    pub const BIT: usize = 2;
    /// As in an answer about a frame.
    pub const NAME: usize = 3;
    pub const BLOCK: usize = 4;
    pub const BYTES: usize = 5;
    pub const BSID: usize = 6;
    pub const ACMOD: usize = 7;
    pub const LFEON: usize = 8;
    pub const FSCOD: usize = 9;
}

pub type HeaderAnswer = [i32; HEADER_ANSWER_NUMBERS];

/// The bytes of a burst.
pub const BURST_BYTES: usize = 6144;

/// The numbers of an answer about a burst.
pub const BURST_ANSWER_NUMBERS: usize = 3;

/// Which number of an answer about a burst is which. (Number 1 is the count of rows.)
pub mod burst_answer_at {
    /// 0 if the burst was written or read.
    pub const REFUSAL: usize = 0;
    /// How many bytes were written to the output.
    pub const WRITTEN: usize = 2;
}

pub type BurstAnswer = [i32; BURST_ANSWER_NUMBERS];

/// The numbers of an answer about a salvage.
pub const SALVAGE_ANSWER_NUMBERS: usize = 3;

/// Which number of an answer about a salvage is which.
pub mod salvage_answer_at {
    /// 0 if the walk came to the capture's end.
    pub const REFUSAL: usize = 0;
    /// How many entries the list has.
    pub const ENTRIES: usize = 1;
    /// How many bytes were written to the output.
    pub const WRITTEN: usize = 2;
}

pub type SalvageAnswer = [usize; SALVAGE_ANSWER_NUMBERS];

/// The numbers of an entry of a salvage's list: a list of this many numbers holds one.
pub const ENTRY_NUMBERS: usize = 3;

/// Which number of an entry is which.
pub mod entry_at {
    pub const KIND: usize = 0;
    /// The first byte, counted from the capture's first.
    pub const PLACE: usize = 1;
    /// In bytes.
    pub const LENGTH: usize = 2;
}

/// The kinds of an entry.
pub mod kind {
    pub const FRAME: usize = 0;
    pub const GAP: usize = 1;
}

/// The numbers of an answer about an AHT section.
pub const AHT_ANSWER_NUMBERS: usize = 3;

/// Which number of an answer about an AHT section is which.
pub mod aht_answer_at {
    /// 0 if the whole section was walked over.
    pub const REFUSAL: usize = 0;
    /// The bit after the section.
    pub const END: usize = 1;
    /// How many GAQ tags it has.
    pub const TAGS: usize = 2;
}

pub type AhtAnswer = [usize; AHT_ANSWER_NUMBERS];

/// The numbers of an answer about the profile.
pub const PROFILE_ANSWER_NUMBERS: usize = 4;

/// Which number of an answer about the profile is which.
pub mod profile_answer_at {
    /// 0 if the frame was accepted.
    pub const REFUSAL: usize = 0;
    /// How many rows were written.
    pub const ROWS: usize = 1;
    /// The first broken rule; 0 if none is broken.
    pub const RULE: usize = 2;
    /// The row that breaks it, from 0.
    pub const ROW: usize = 3;
}

pub type ProfileAnswer = [i32; PROFILE_ANSWER_NUMBERS];

/// The numbers of an answer about a packed listing.
pub const PACK_ANSWER_NUMBERS: usize = 2;

/// Which number of an answer about a packed listing is which.
pub mod pack_answer_at {
    /// 0 if the listing was packed or unpacked.
    pub const REFUSAL: usize = 0;
    /// How many bytes were written to the output.
    pub const WRITTEN: usize = 1;
}

pub type PackAnswer = [usize; PACK_ANSWER_NUMBERS];

/// The numbers of an answer about a level correction.
pub const LEVEL_ANSWER_NUMBERS: usize = 3;

/// Which number of an answer about a level correction is which. (Number 1 is the count of rows.)
pub mod level_answer_at {
    /// 0 if the level was written.
    pub const REFUSAL: usize = 0;
    /// How many changes were listed.
    pub const CHANGES: usize = 2;
}

pub type LevelAnswer = [i32; LEVEL_ANSWER_NUMBERS];

/// The numbers of a change.
pub const CHANGE_NUMBERS: usize = 3;

/// Which number of a change is which.
pub mod change_at {
    /// A name's number, as in a row; or one of the next two.
    pub const NAME: usize = 0;
    pub const OLD: usize = 1;
    pub const NEW: usize = 2;
}

/// The names of what changes and is no row.
pub mod tail_name {
    pub const CRCRSV: i32 = 112;
    pub const CRC2: i32 = 113;
}

/// Changes that no correction exceeds.
pub const MOST_CHANGES: usize = 4;

pub type ChangeList = [i32; MOST_CHANGES * CHANGE_NUMBERS];

/// The numbers of an answer about an index.
pub const INDEX_ANSWER_NUMBERS: usize = 2;

/// Which number of an answer about an index is which.
pub mod index_answer_at {
    /// 0 if the index was made or extended.
    pub const REFUSAL: usize = 0;
    /// How many entries the index has; on a refusal those that it had.
    pub const ENTRIES: usize = 1;
}

pub type IndexAnswer = [usize; INDEX_ANSWER_NUMBERS];

/// The numbers of an entry of an index: an index of this many numbers holds one.
pub const INDEX_ENTRY_NUMBERS: usize = 5;

/// Which number of an entry of an index is which.
pub mod index_entry_at {
    /// The frame's first byte, counted from the capture's first.
    pub const PLACE: usize = 0;
    /// In bytes.
    pub const LENGTH: usize = 1;
    pub const ACMOD: usize = 2;
    pub const DIALNORM: usize = 3;
    /// Of the second programme; 0 where there is none.
    pub const DIALNORM2: usize = 4;
}
