//! AHT sections: one channel's gain words and mantissas for all six blocks, walked over from a given bit on.
//!
//! There are two walks. One is the published `aht`, on every input that it can take. The other is written from the words of the
//! description and the standard's tables, and not from the port: it takes every input, and counts bits without bound. `answer` holds the
//! first against the second.
//!
//! Mantissa values steer the length here: where a small mantissa is the tag, its first bit 1 and all others 0, a large one follows it.

use crate::blocks;
use crate::error::Error;
use crate::layout::AhtAnswer;
use crate::syntax::Cursor;

/// Something would end past the given end, or past the data's.
pub const PAST_THE_END: usize = 6;
/// A composite gain is above 26.
pub const WRONG_GAIN: usize = 25;
/// A hebap is above 19.
pub const WRONG_HEBAP: usize = 26;
/// The end bin is above the number of hebaps.
pub const NO_SUCH_BIN: usize = 27;

/// The largest composite gain, and the largest hebap.
pub const LAST_GAIN: usize = 26;
pub const LAST_HEBAP: u8 = 19;
/// The blocks whose mantissas a section has.
pub const BLOCKS: usize = 6;

/// What a call is given: a section that begins at bit `at` of `data`, has nothing from bit `end` on, and is about the bins from `first` on
/// and before `past`.
#[derive(Clone, Copy, Debug)]
pub struct Asked<'a> {
    pub data: &'a [u8],
    pub at: usize,
    pub end: usize,
    pub hebap: &'a [u8],
    pub first: usize,
    pub past: usize,
}

impl Asked<'_> {
    /// The bit from which on nothing can be read.
    pub fn limit(&self) -> u128 {
        (self.end as u128).min(8 * self.data.len() as u128)
    }

    /// The hebaps of the range, which is empty where the first bin is at or past the end bin.
    pub fn bins(&self) -> &[u8] {
        self.hebap.get(self.first..self.past).unwrap_or(&[])
    }
}

/// What stands in a section.
#[derive(Clone, Copy, Debug, PartialEq, Eq, PartialOrd, Ord)]
pub enum What {
    Gaqmod,
    /// A bit of gaqmod 1 or 2.
    Gain,
    /// The gains of three bins, gaqmod 3.
    Composite,
    /// A bin of hebap 1 to 7.
    Vector,
    /// A mantissa of gain 1.
    Plain,
    /// A mantissa of gain 2 or 4, and what follows a tag.
    Small(usize),
    Large(usize),
}

impl What {
    /// What the published text calls it.
    fn published(self) -> &'static str {
        match self {
            What::Gaqmod => "gaqmod",
            What::Gain | What::Composite => "gaqgain",
            What::Vector => "vector index",
            What::Plain => "gaq mantissa",
            What::Small(_) => "gaq small mantissa",
            What::Large(_) => "gaq large mantissa",
        }
    }
}

/// One thing read, or the one that did not fit and has no value.
#[derive(Clone, Copy, Debug, PartialEq, Eq)]
pub struct Read {
    pub what: What,
    pub at: u128,
    pub width: usize,
    pub value: Option<usize>,
}

/// Is a gain sent for a bin of this hebap?
pub fn has_gain(gaqmod: usize, hebap: u8) -> bool {
    match gaqmod {
        0 => false,
        1 => (8..=11).contains(&hebap),
        _ => (8..=16).contains(&hebap),
    }
}

/// Bits of a vector index, of a bin of hebap 1 to 7 (Table E.2.2).
pub fn vector_bits(hebap: u8) -> usize {
    match hebap {
        1..=4 => usize::from(hebap) + 1,
        _ => usize::from(hebap) + 2,
    }
}

/// Bits of a mantissa of gain 1, of a bin of hebap 8 to 19 (Table E.2.2).
pub fn mantissa_bits(hebap: u8) -> usize {
    match hebap {
        18 => 14,
        19 => 16,
        _ => usize::from(hebap) - 5,
    }
}

/// Bits of a small and of a large mantissa where gain 1 has `bits`.
pub fn small_and_large(gain: usize, bits: usize) -> (usize, usize) {
    match gain {
        2 => (bits - 1, bits - 1),
        _ => (bits - 2, bits),
    }
}

/// A walk, as far as it went.
pub struct Walk<'a> {
    asked: Asked<'a>,
    /// The next bit.
    pub at: u128,
    pub reads: Vec<Read>,
    /// The hebap and gain of each bin of hebap 8 to 19 that was reached, with its tags.
    pub bins: Vec<(u8, usize, usize)>,
    pub gaqmod: Option<usize>,
    tags: usize,
}

impl Walk<'_> {
    /// So many bits, most significant first.
    fn read(&mut self, what: What, width: usize) -> Result<usize, usize> {
        let (at, end) = (self.at, self.at + width as u128);
        let fits = end <= self.asked.limit();
        let value = fits.then(|| {
            (at as usize..end as usize).fold(0, |value, bit| {
                let byte = usize::from(self.asked.data[bit / 8]);
                2 * value + (byte >> (7 - bit % 8)) % 2
            })
        });
        self.reads.push(Read {
            what,
            at,
            width,
            value,
        });
        let value = value.ok_or(PAST_THE_END)?;
        self.at = end;
        Ok(value)
    }

    /// The gains of the bins that have one, in their order.
    fn gains(&mut self, gaqmod: usize) -> Result<Vec<usize>, usize> {
        let bins = self.asked.bins().iter();
        let sent = bins.filter(|hebap| has_gain(gaqmod, **hebap)).count();
        let mut gains = Vec::new();
        while gains.len() < sent {
            match gaqmod {
                3 => {
                    let word = self.read(What::Composite, 5)?;
                    if word > LAST_GAIN {
                        return Err(WRONG_GAIN);
                    }
                    // Three digits of base 3, the first bin's first.
                    gains.extend([word / 9, word / 3 % 3, word % 3].map(|digit| 1 << digit));
                }
                _ => {
                    let bit = self.read(What::Gain, 1)?;
                    gains.push(1 << (bit * gaqmod));
                }
            }
        }
        Ok(gains)
    }

    /// One block's mantissa; whether it is a tag, with a large one after it.
    fn mantissa(&mut self, gain: usize, bits: usize) -> Result<bool, usize> {
        if gain == 1 {
            self.read(What::Plain, bits)?;
            return Ok(false);
        }
        let (small, large) = small_and_large(gain, bits);
        let tag = 2 * self.read(What::Small(gain), small)? == 1 << small;
        if tag {
            self.read(What::Large(gain), large)?;
        }
        Ok(tag)
    }

    fn section(&mut self) -> Result<(), usize> {
        if self.asked.past > self.asked.hebap.len() {
            return Err(NO_SUCH_BIN);
        }
        let gaqmod = self.read(What::Gaqmod, 2)?;
        self.gaqmod = Some(gaqmod);
        let mut gains = self.gains(gaqmod)?.into_iter();
        let asked = self.asked;
        for &hebap in asked.bins() {
            match hebap {
                0 => {}
                1..=7 => {
                    self.read(What::Vector, vector_bits(hebap))?;
                }
                8..=LAST_HEBAP => {
                    let gain = match has_gain(gaqmod, hebap) {
                        true => gains.next().expect("as many gains as bins"),
                        false => 1,
                    };
                    self.bins.push((hebap, gain, 0));
                    for _ in 0..BLOCKS {
                        let tag = self.mantissa(gain, mantissa_bits(hebap))?;
                        let (.., of_bin) = self.bins.last_mut().expect("the bin");
                        *of_bin += usize::from(tag);
                        self.tags += usize::from(tag);
                    }
                }
                _ => return Err(WRONG_HEBAP),
            }
        }
        Ok(())
    }
}

/// The walk over a section, and its answer.
pub fn walk(asked: Asked<'_>) -> (Walk<'_>, AhtAnswer) {
    let mut walk = Walk {
        asked,
        at: asked.at as u128,
        reads: Vec::new(),
        bins: Vec::new(),
        gaqmod: None,
        tags: 0,
    };
    let answer = match walk.section() {
        Ok(()) => [0, walk.at as usize, walk.tags],
        Err(refusal) => [refusal, 0, 0],
    };
    (walk, answer)
}

/// Can the published `aht` take it? It looks up every bin of the range, whatever the array's length; it cannot count past 64 bits, and the
/// first two are the only ones that may lead there, since they are read no further than the data goes.
pub fn can_be_published(asked: &Asked<'_>) -> bool {
    asked.past <= asked.hebap.len() && asked.at.checked_add(2).is_some()
}

/// What the published `aht` says of an input that it can take: its answer, with the numbers of its refusals, and the text of refusal 6.
pub fn published(asked: &Asked<'_>) -> (AhtAnswer, Option<String>) {
    let mut cursor = Cursor {
        data: asked.data,
        pos: asked.at,
        limit: asked.limit() as usize,
        fields: Vec::new(),
        block: -1,
    };
    match blocks::aht(&mut cursor, asked.hebap, asked.first, asked.past) {
        Ok(tags) => ([0, cursor.pos, tags], None),
        Err(Error::Truncated(text)) => ([PAST_THE_END, 0, 0], Some(text)),
        Err(Error::Invalid(text)) => match text.as_str() {
            "composite GAQ gain above 26" => ([WRONG_GAIN, 0, 0], None),
            "hebap above 19" => ([WRONG_HEBAP, 0, 0], None),
            other => panic!("{other}"),
        },
        Err(other) => panic!("{other}"),
    }
}

/// The answer to a call, with the walk, held against the published one where there is one.
pub fn answer(asked: Asked<'_>) -> (Walk<'_>, AhtAnswer) {
    let (walk, answer) = walk(asked);
    if can_be_published(&asked) {
        let unfit = walk.reads.last().filter(|read| read.value.is_none());
        let text = unfit.map(
            |Read {
                 what, at, width, ..
             }| {
                let (name, limit) = (what.published(), asked.limit());
                format!("{name} ({width} bits) at bit {at} beyond {limit}")
            },
        );
        assert_eq!(published(&asked), (answer, text), "{asked:?}");
    }
    (walk, answer)
}
