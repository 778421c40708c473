//! AHT sections of E-AC-3: where one ends, and how many tags it has.
//!
//! Under the adaptive hybrid transform the gain words, vector indices and mantissas of a channel stand together for all six blocks, bin by
//! bin. [`walk`] goes over such a section from a given bit on. What stands before it, and the hebap of each bin, is the caller's to know;
//! docs/FORMAT.md has a section word by word.
//!
//! ```
//! // gaqmod 1, gain 2 for the only bin, whose hebap is 8: six mantissas of 2 bits.
//! let section = ferrysprig::aht::walk(&[0b01_1_00_01_1, 0b1_00_01_00_0], 0, 16, &[8], 0..1)?;
//! assert_eq!((section.end, section.tags), (15, 0));
//! # Ok::<(), ferrysprig::aht::Refusal>(())
//! ```
//!
//! # Mantissa values steer the length
//!
//! In a frame that [`parse`](crate::parse) accepts no mantissa bit moves anything. Here some do: under gain 2 or 4 a mantissa whose first
//! bit is 1 and whose other bits are 0 is a tag, and a large mantissa follows it. Whoever changes a mantissa may move the section's end,
//! and all that stands after it.
//!
//! ```
//! use ferrysprig::aht::walk;
//!
//! // The section above with one bit changed, the first of its first mantissa.
//! let section = walk(&[0b01_1_10_01_1, 0b1_00_01_00_0, 0], 0, 24, &[8], 0..1)?;
//! assert_eq!((section.end, section.tags), (17, 1));
//! # Ok::<(), ferrysprig::aht::Refusal>(())
//! ```
//!
//! So this alone is proved of bits (docs/PROMISES.md): equal bits give equal ends and tags. What stands before a section and after its end
//! does not matter, nor where it begins.
//!
//! # In place of the original's
//!
//! To keep the original's callers of `aht`, let its blocks.rs say
//!
//! ```text
//! pub fn aht(cur: &mut Cursor<'_>, hebap: &[u8], start: usize, end: usize) -> Result<usize> {
//!     let section = ferrysprig::aht::walk(cur.data, cur.pos, cur.limit, hebap, start..end)?;
//!     cur.pos = section.end;
//!     Ok(section.tags)
//! }
//! ```
//!
//! with `From<ferrysprig::aht::Refusal>` for its error, as for [`Refusal`](crate::Refusal) on the crate's own page. Where the original
//! panics, it refuses.

use crate::layout::aht_answer_at;
use crate::raw;
use std::fmt;
use std::ops::Range;

/// A section that was walked over.
#[derive(Clone, Copy, Debug, PartialEq, Eq, Hash)]
#[non_exhaustive]
pub struct Section {
    /// The first bit after it.
    pub end: usize,
    /// How many GAQ tags it has: mantissas with a large one after them.
    pub tags: usize,
}

/// Why a section was not walked over to its end. `NoSuchBin` is looked for first; of the others the one that is met first is told.
#[derive(Clone, Copy, Debug, PartialEq, Eq, Hash)]
#[non_exhaustive]
pub enum Refusal {
    /// 6: something would end past the given end or the data's end.
    PastTheEnd,
    /// 25: a composite gain is above 26.
    WrongGain,
    /// 26: a hebap is above 19.
    WrongHebap,
    /// 27: the end bin is above the number of hebaps, for an empty range too.
    NoSuchBin,
}

impl Refusal {
    /// Its number (docs/FORMAT.md).
    #[must_use]
    pub fn number(self) -> u8 {
        match self {
            Refusal::PastTheEnd => 6,
            Refusal::WrongGain => 25,
            Refusal::WrongHebap => 26,
            Refusal::NoSuchBin => 27,
        }
    }

    /// What it means.
    #[must_use]
    pub fn meaning(self) -> &'static str {
        match self {
            Refusal::PastTheEnd => "something would end past the given end or the data's end",
            Refusal::WrongGain => "a composite gain is above 26",
            Refusal::WrongHebap => "a hebap is above 19",
            Refusal::NoSuchBin => "the end bin is above the number of hebaps",
        }
    }
}

impl fmt::Display for Refusal {
    fn fmt(&self, f: &mut fmt::Formatter<'_>) -> fmt::Result {
        write!(f, "refusal {}: {}", self.number(), self.meaning())
    }
}

impl std::error::Error for Refusal {}

/// Walks over the AHT section at bit `at` of `data`, of which nothing may stand from bit `end` on or past the data, for a range of bins;
/// `hebap` has an entry for each bin from 0 on. A range whose first bin is at or past its end has no bins, and gaqmod alone is read.
///
/// ```
/// use ferrysprig::aht::{walk, Refusal};
///
/// // gaqmod 3, the gains 1, 4 and 2, and zeros.
/// let data = [0b11_00111_0, 0, 0, 0, 0, 0, 0];
/// let hebap = [0, 8, 8, 3, 8, 20];
/// let section = walk(&data, 0, 56, &hebap, 0..5)?;
/// assert_eq!(section.end, 2 + 5 + 6 * 3 + 6 + 4 + 6 * 2);
/// assert_eq!(walk(&data, 0, 56, &hebap, 5..5)?.end, 2); // no bins
///
/// assert_eq!(walk(&data, 0, section.end - 1, &hebap, 0..5), Err(Refusal::PastTheEnd));
/// assert_eq!(walk(&[0b11_11011_0, 0], 0, 16, &hebap, 0..5), Err(Refusal::WrongGain));
/// assert_eq!(walk(&data, 0, 56, &hebap, 0..6), Err(Refusal::WrongHebap));
/// assert_eq!(walk(&data, 0, 56, &hebap, 0..7), Err(Refusal::NoSuchBin));
/// # Ok::<(), Refusal>(())
/// ```
///
/// # Errors
///
/// Any [`Refusal`].
pub fn walk(
    data: &[u8],
    at: usize,
    end: usize,
    hebap: &[u8],
    bins: Range<usize>,
) -> Result<Section, Refusal> {
    let answer = raw::aht(data, at, end, hebap, bins.start, bins.end);
    match answer[aht_answer_at::REFUSAL] {
        0 => Ok(Section {
            end: answer[aht_answer_at::END],
            tags: answer[aht_answer_at::TAGS],
        }),
        6 => Err(Refusal::PastTheEnd),
        25 => Err(Refusal::WrongGain),
        26 => Err(Refusal::WrongHebap),
        27 => Err(Refusal::NoSuchBin),
        other => panic!("libferrysprig.a gave {other}, which this crate does not know"),
    }
}
