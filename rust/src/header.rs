//! What comes of reading a header alone: syncinfo and bsi, through addbsi.

use crate::layout::{header_answer_at, HeaderAnswer, HEADER_ANSWER_NUMBERS};
use crate::names::known;
use crate::{Field, Fields, Role};

/// What a frame's header says of the frame.
#[derive(Clone, Copy, Debug, PartialEq, Eq, Hash)]
#[non_exhaustive]
pub struct HeaderSummary {
    /// How many fields the header has.
    pub rows: usize,
    /// The first bit after them: where block 0 starts.
    pub end: usize,
    /// The frame's length: the next frame starts so many bytes on.
    pub bytes: usize,
    /// The version of the syntax, at most 8.
    pub bsid: u8,
    /// Which channels there are.
    pub acmod: u8,
    /// Whether there is an LFE channel.
    pub lfeon: bool,
    /// The code of the sample rate.
    pub fscod: u8,
}

impl HeaderSummary {
    /// The summary in the answer about a header that was read.
    pub(crate) fn of(answer: &HeaderAnswer) -> HeaderSummary {
        HeaderSummary {
            rows: known(answer[header_answer_at::ROWS]),
            end: known(answer[header_answer_at::BIT]),
            bytes: known(answer[header_answer_at::BYTES]),
            bsid: known(answer[header_answer_at::BSID]),
            acmod: known(answer[header_answer_at::ACMOD]),
            lfeon: answer[header_answer_at::LFEON] == 1,
            fscod: known(answer[header_answer_at::FSCOD]),
        }
    }

    /// The answer of which this is the summary.
    pub(crate) fn answer(&self) -> HeaderAnswer {
        // (A count that no archive gives is told as -1, which none gives either.)
        let number = |count: usize| i32::try_from(count).unwrap_or(-1);
        let mut answer = [0; HEADER_ANSWER_NUMBERS];
        answer[header_answer_at::ROWS] = number(self.rows);
        answer[header_answer_at::BIT] = number(self.end);
        answer[header_answer_at::BLOCK] = -1;
        answer[header_answer_at::BYTES] = number(self.bytes);
        answer[header_answer_at::BSID] = self.bsid.into();
        answer[header_answer_at::ACMOD] = self.acmod.into();
        answer[header_answer_at::LFEON] = self.lfeon.into();
        answer[header_answer_at::FSCOD] = self.fscod.into();
        answer
    }
}

/// A frame's header.
///
/// ```
/// use ferrysprig::Role;
///
/// let header = ferrysprig::header(include_bytes!("../../judge/frames/header-production.ac3"))?;
/// assert_eq!(header.value(Role::Dialnorm(0)), Some(20));
/// assert_eq!(header.find(Role::Dialnorm(0)), header.named("dialnorm"));
/// assert_eq!(header.named("compr"), None); // there is none
/// # Ok::<(), ferrysprig::Refusal>(())
/// ```
#[derive(Clone, Debug, PartialEq, Eq, Hash)]
#[non_exhaustive]
pub struct Header {
    /// End to end from bit 0 to `end` of the summary, in no block.
    pub fields: Vec<Field>,
    /// What the header says of the frame.
    pub summary: HeaderSummary,
}

impl Header {
    /// The first element of a role.
    #[must_use]
    pub fn find(&self, role: Role) -> Option<&Field> {
        self.fields.iter().find(|f| f.role == role)
    }

    /// The value of the first element of a role.
    #[must_use]
    pub fn value(&self, role: Role) -> Option<u32> {
        self.find(role).map(|f| f.value)
    }

    /// The element of a name.
    #[must_use]
    pub fn named(&self, name: &str) -> Option<&Field> {
        self.fields.iter().find(|f| f.name == name)
    }
}

/// A frame's header whose rows stand in a lent room. Its functions are those of [`Header`].
#[derive(Clone, Debug)]
#[non_exhaustive]
pub struct HeaderRef<'a> {
    /// End to end from bit 0 to `end` of the summary, in no block. A clone starts at the first one again.
    pub fields: Fields<'a>,
    /// What the header says of the frame.
    pub summary: HeaderSummary,
}

impl HeaderRef<'_> {
    /// The first element of a role.
    #[must_use]
    pub fn find(&self, role: Role) -> Option<Field> {
        self.fields.clone().of_role(role).next()
    }

    /// The value of the first element of a role.
    #[must_use]
    pub fn value(&self, role: Role) -> Option<u32> {
        self.find(role).map(|f| f.value)
    }

    /// The element of a name.
    #[must_use]
    pub fn named(&self, name: &str) -> Option<Field> {
        self.fields.clone().find(|f| f.name == name)
    }

    /// The header with a list of its own.
    #[must_use]
    pub fn to_header(&self) -> Header {
        Header {
            fields: self.fields.clone().collect(),
            summary: self.summary,
        }
    }
}

#[cfg(test)]
mod tests {
    use super::*;

    #[test]
    fn a_summary_is_its_answer_again() {
        let answer = [0, 17, 65, 0, -1, 128, 8, 1, 1, 2];
        let summary = HeaderSummary::of(&answer);
        assert_eq!(summary.answer(), answer);
        let changed = HeaderSummary {
            bytes: usize::MAX,
            lfeon: false,
            ..summary
        };
        assert_eq!(changed.answer(), [0, 17, 65, 0, -1, -1, 8, 1, 0, 2]);
    }
}
