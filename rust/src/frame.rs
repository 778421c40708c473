//! What comes of parsing: a frame, in a list of its own or in lent room, or a refusal.

use crate::layout::{answer_at, Answer, SLOTS};
use crate::names::{known, meaning, name_of};
use crate::{Field, Fields, Role};
use std::array::from_fn;
use std::fmt;

/// What an accepted frame says of itself.
#[derive(Clone, Debug, PartialEq, Eq, Hash)]
#[non_exhaustive]
pub struct Summary {
    /// The frame's length: the next frame starts so many bytes on.
    pub bytes: usize,
    /// The first bit after the last block's mantissas: where the tail starts.
    pub audio_end: usize,
    /// The version of the syntax, at most 8.
    pub bsid: u8,
    /// Which channels there are.
    pub acmod: u8,
    /// Whether there is an LFE channel.
    pub lfeon: bool,
    /// The code of the sample rate.
    pub fscod: u8,
    /// How many blocks use coupling.
    pub cpl_blocks: usize,
    /// Bit positions of each block's first element.
    pub block_starts: [usize; 6],
    /// Bit positions of each block's mantissas.
    pub mantissa_starts: [usize; 6],
    /// Whether in every block each coupled channel has cplcoe 1, or had it in an earlier block while it was coupled; yes where no block uses
    /// coupling.
    pub coordinates_sent: bool,
    /// How many bits the mantissas of each slot take, by block and slot: channels 0 to 4, [`slot::COUPLING`](crate::slot::COUPLING),
    /// [`slot::LFE`](crate::slot::LFE). A group's bits are counted to the slot of its first member, so a slot all of whose mantissas stand in
    /// groups that were opened before it has 0; so has one that is not in use. The seven of a block sum to the width of its mantissas.
    pub mantissa_bits: [[usize; SLOTS]; 6],
}

/// The summary in an accepted frame's answer.
pub(crate) fn summary(answer: &Answer) -> Summary {
    Summary {
        bytes: known(answer[answer_at::BYTES]),
        audio_end: known(answer[answer_at::AUDIO_END]),
        bsid: known(answer[answer_at::BSID]),
        acmod: known(answer[answer_at::ACMOD]),
        lfeon: answer[answer_at::LFEON] == 1,
        fscod: known(answer[answer_at::FSCOD]),
        cpl_blocks: known(answer[answer_at::CPL_BLOCKS]),
        block_starts: from_fn(|block| known(answer[answer_at::BLOCK_STARTS + block])),
        mantissa_starts: from_fn(|block| known(answer[answer_at::MANTISSA_STARTS + block])),
        coordinates_sent: answer[answer_at::COORDINATES_SENT] == 1,
        mantissa_bits: from_fn(|block| {
            from_fn(|slot| known(answer[answer_at::MANTISSA_BITS + SLOTS * block + slot]))
        }),
    }
}

/// An accepted frame.
///
/// ```
/// use ferrysprig::Role;
///
/// let frame = ferrysprig::parse(include_bytes!("../../judge/frames/header-production.ac3"))?;
/// assert_eq!(frame.value(Role::Dialnorm(0), -1), Some(20));
/// assert_eq!(frame.named("mixlevel").map(|field| field.width), Some(5));
/// let presence: Vec<i8> = frame.all(Role::DynrngExists(0)).map(|field| field.block).collect();
/// assert_eq!(presence, [0, 1, 2, 3, 4, 5]); // dynrnge, once in each block
/// assert_eq!(frame.find(Role::Mantissas, 5).map(|span| span.end()), Some(frame.summary.audio_end));
/// assert!(frame.summary.audio_end <= frame.total_bits());
/// # Ok::<(), ferrysprig::Refusal>(())
/// ```
#[derive(Clone, Debug, PartialEq, Eq, Hash)]
#[non_exhaustive]
pub struct Frame {
    /// End to end from bit 0 to `audio_end`.
    pub fields: Vec<Field>,
    /// What the frame says of itself.
    pub summary: Summary,
}

impl Frame {
    /// The frame's length in bits, tail included.
    #[must_use]
    pub fn total_bits(&self) -> usize {
        self.summary.bytes * 8
    }

    /// The first element of a role in a block (-1: outside blocks).
    #[must_use]
    pub fn find(&self, role: Role, block: i8) -> Option<&Field> {
        self.fields
            .iter()
            .find(|f| f.role == role && f.block == block)
    }

    /// Every element of a role.
    pub fn all(&self, role: Role) -> impl Iterator<Item = &Field> {
        self.fields.iter().filter(move |f| f.role == role)
    }

    /// The value of the first element of a role in a block (-1: outside blocks).
    #[must_use]
    pub fn value(&self, role: Role, block: i8) -> Option<u32> {
        self.find(role, block).map(|f| f.value)
    }

    /// The first element of a name.
    #[must_use]
    pub fn named(&self, name: &str) -> Option<&Field> {
        self.fields.iter().find(|f| f.name == name)
    }
}

/// An accepted frame whose rows stand in a lent room. Its functions are those of [`Frame`].
#[derive(Clone, Debug)]
#[non_exhaustive]
pub struct FrameRef<'a> {
    /// End to end from bit 0 to `audio_end`. A clone starts at the first one again.
    pub fields: Fields<'a>,
    /// What the frame says of itself.
    pub summary: Summary,
}

impl<'a> FrameRef<'a> {
    /// The frame's length in bits, tail included.
    #[must_use]
    pub fn total_bits(&self) -> usize {
        self.summary.bytes * 8
    }

    /// The first element of a role in a block (-1: outside blocks).
    #[must_use]
    pub fn find(&self, role: Role, block: i8) -> Option<Field> {
        self.all(role).find(|f| f.block == block)
    }

    /// Every element of a role.
    pub fn all(&self, role: Role) -> impl Iterator<Item = Field> + 'a {
        self.fields.clone().of_role(role)
    }

    /// The value of the first element of a role in a block (-1: outside blocks).
    #[must_use]
    pub fn value(&self, role: Role, block: i8) -> Option<u32> {
        self.find(role, block).map(|f| f.value)
    }

    /// The first element of a name.
    #[must_use]
    pub fn named(&self, name: &str) -> Option<Field> {
        self.fields.clone().find(|f| f.name == name)
    }

    /// The frame with a list of its own.
    #[must_use]
    pub fn to_frame(&self) -> Frame {
        Frame {
            fields: self.fields.clone().list(),
            summary: self.summary.clone(),
        }
    }
}

/// Why a frame, or its header, was not accepted, and how far it was read.
#[derive(Clone, Debug, PartialEq, Eq, Hash)]
#[non_exhaustive]
pub struct Refusal {
    /// 1 to 23; of a header alone 1 to 5 or 7. [`blocks_into`](crate::blocks_into) gives 24, with nothing read, where it is told of another
    /// header.
    pub number: u8,
    /// What was read before, end to end from bit 0. The last one has the bad value at refusals 2, 5, 8, 11, 16 to 19 and 21 to 23. At 3 it
    /// is one of the last two, fscod and frmsizecod; at 9 both of them together, cplbegf and cplendf. At 10, 12 to 15 and 20 the last one is
    /// not to blame, but what was sent, or never sent, before; at 1, 4, 6 and 7 input, frame or room end too early.
    pub rows: Vec<Field>,
    /// The first bit not yet read.
    pub bit: usize,
    /// What would end past the frame, at refusal 6; else none.
    pub unfit: Option<Unfit>,
}

/// A field, a span or a block's mantissas that would end past the frame. It comes next after the rows that were read.
#[derive(Clone, Copy, Debug, PartialEq, Eq, Hash)]
#[non_exhaustive]
pub struct Unfit {
    /// Its name, one of [`NAMES`](crate::NAMES).
    pub name: &'static str,
    /// Its block, 0 to 5; -1 would be the header, but every header fits.
    pub block: i8,
}

/// What did not fit, by its numbers in an answer.
pub(crate) fn unfit(name: i32, block: i32) -> Option<Unfit> {
    (name != 0).then(|| Unfit {
        name: name_of(name),
        block: known(block),
    })
}

impl Refusal {
    /// What the number means.
    #[must_use]
    pub fn meaning(&self) -> &'static str {
        meaning(self.number)
    }
}

impl fmt::Display for Refusal {
    fn fmt(&self, f: &mut fmt::Formatter<'_>) -> fmt::Result {
        write!(
            f,
            "refusal {} at bit {}: {}",
            self.number,
            self.bit,
            self.meaning()
        )?;
        match self.unfit {
            Some(Unfit { name, block: -1 }) => write!(f, " ({name} in the header)"),
            Some(Unfit { name, block }) => write!(f, " ({name} in block {block})"),
            None => Ok(()),
        }
    }
}

impl std::error::Error for Refusal {}

#[cfg(test)]
mod tests {
    use super::*;
    use crate::REFUSALS;

    fn refusal(number: u8) -> Refusal {
        Refusal {
            number,
            rows: Vec::new(),
            bit: 7,
            unfit: None,
        }
    }

    #[test]
    fn each_refusal_has_a_text_of_its_own() {
        for (number, meaning) in (1..).zip(REFUSALS) {
            assert_eq!(refusal(number).meaning(), *meaning);
            assert_eq!(
                refusal(number).to_string(),
                format!("refusal {number} at bit 7: {meaning}")
            );
            assert_eq!(REFUSALS.iter().filter(|other| *other == meaning).count(), 1);
        }
    }

    #[test]
    fn what_did_not_fit_is_said() {
        assert_eq!(unfit(0, -1), None);
        for (number, name, block, place) in [
            (111, "mantissas", 5, "block 5"),
            (1, "syncword", -1, "the header"),
        ] {
            let told = unfit(number, block.into());
            assert_eq!(told, Some(Unfit { name, block }));
            let past = Refusal {
                unfit: told,
                ..refusal(6)
            };
            let text = "refusal 6 at bit 7: a field, span or mantissa would end past the frame";
            assert_eq!(past.to_string(), format!("{text} ({name} in {place})"));
        }
    }

    #[test]
    fn another_header_has_its_text() {
        assert_eq!(
            refusal(24).meaning(),
            "the header answer does not fit the input"
        );
    }

    #[test]
    fn other_numbers_are_no_refusals() {
        for number in [0, 25, 255] {
            assert_eq!(refusal(number).meaning(), "no refusal has this number");
        }
    }
}
