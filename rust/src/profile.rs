//! The contribution profile: the part of AC-3 that a carrier takes.
//!
//! A frame is within it when fscod is 0, acmod 2 or 7, bsid 6 or 8, the frame has 384 words or more (192 kbit/s), lfeon is 1 only with acmod
//! 7, no block has deltbaie 1, and the first programme's dialnorm is not 0. Of the rules that a frame breaks, the first in this order is
//! told, with the field that breaks it: that is proved (docs/PROMISES.md).
//!
//! ```
//! use ferrysprig::profile::{check, Profile, Rule};
//!
//! let mut frame = include_bytes!("../../judge/frames/rate-192-2_0-tones.ac3").to_vec();
//! assert_eq!(check(&frame, 0)?, Profile::Within);
//!
//! let dialnorm = 9; // the tenth field
//! let field = ferrysprig::parse(&frame).unwrap().fields[dialnorm].clone();
//! ferrysprig::edit::set(&mut frame, 0, &field, 0).unwrap();
//! let profile = check(&frame, 0)?;
//! assert_eq!(profile, Profile::Broken { rule: Rule::Dialnorm, row: dialnorm });
//! assert_eq!(profile.to_string(), "rule 7 is broken by row 9: dialnorm is 0");
//! # Ok::<(), ferrysprig::profile::Refusal>(())
//! ```

use crate::layout::profile_answer_at;
use crate::names::{known, meaning};
use crate::parser::in_kept_room;
use crate::{raw, Fields};
use std::fmt;

/// What the profile says of an accepted frame.
#[derive(Clone, Copy, Debug, PartialEq, Eq, Hash)]
pub enum Profile {
    /// No rule is broken.
    Within,
    /// A rule is broken, and none before it.
    Broken {
        /// The first broken rule.
        rule: Rule,
        /// The field that breaks it, from 0: its place in [`Frame::fields`](crate::Frame::fields). Of several blocks with deltbaie 1 it is
        /// the first one's.
        row: usize,
    },
}

/// The rules, in their order.
#[derive(Clone, Copy, Debug, PartialEq, Eq, PartialOrd, Ord, Hash)]
pub enum Rule {
    /// 1: fscod is 0.
    Fscod,
    /// 2: acmod is 2 or 7.
    Acmod,
    /// 3: bsid is 6 or 8.
    Bsid,
    /// 4: the frame has 384 words or more. The field that breaks it is frmsizecod.
    Words,
    /// 5: lfeon is 1 only with acmod 7.
    Lfeon,
    /// 6: deltbaie is 0 in every block.
    Deltbaie,
    /// 7: the first programme's dialnorm is not 0.
    Dialnorm,
}

impl Rule {
    /// All of them, in their order.
    pub const ALL: [Rule; 7] = [
        Rule::Fscod,
        Rule::Acmod,
        Rule::Bsid,
        Rule::Words,
        Rule::Lfeon,
        Rule::Deltbaie,
        Rule::Dialnorm,
    ];

    /// Its number (docs/FORMAT.md).
    #[must_use]
    pub fn number(self) -> u8 {
        self as u8 + 1
    }

    /// What is wrong where it is broken.
    #[must_use]
    pub fn meaning(self) -> &'static str {
        match self {
            Rule::Fscod => "fscod is not 0",
            Rule::Acmod => "acmod is neither 2 nor 7",
            Rule::Bsid => "bsid is neither 6 nor 8",
            Rule::Words => "the frame has fewer than 384 words",
            Rule::Lfeon => "lfeon is 1, and acmod is not 7",
            Rule::Deltbaie => "a block has deltbaie 1",
            Rule::Dialnorm => "dialnorm is 0",
        }
    }

    fn of(number: i32) -> Rule {
        let rule = Rule::ALL.iter().find(|r| i32::from(r.number()) == number);
        *rule.unwrap_or_else(|| {
            panic!("libferrysprig.a gave rule {number}, which this crate does not know")
        })
    }
}

impl fmt::Display for Rule {
    fn fmt(&self, f: &mut fmt::Formatter<'_>) -> fmt::Result {
        write!(f, "rule {}: {}", self.number(), self.meaning())
    }
}

impl fmt::Display for Profile {
    fn fmt(&self, f: &mut fmt::Formatter<'_>) -> fmt::Result {
        match self {
            Profile::Within => write!(f, "within the profile"),
            Profile::Broken { rule, row } => {
                let (number, meaning) = (rule.number(), rule.meaning());
                write!(f, "rule {number} is broken by row {row}: {meaning}")
            }
        }
    }
}

/// Why there is no frame to be held against the profile: the frame's own refusal, by its number. It is that of [`crate::Refusal`], which
/// [`crate::parse_at`] gives in full.
#[derive(Clone, Copy, Debug, PartialEq, Eq, Hash)]
#[non_exhaustive]
pub struct Refusal {
    /// 1 to 23.
    pub number: u8,
}

impl Refusal {
    /// What the number means.
    #[must_use]
    pub fn meaning(self) -> &'static str {
        meaning(self.number)
    }
}

impl fmt::Display for Refusal {
    fn fmt(&self, f: &mut fmt::Formatter<'_>) -> fmt::Result {
        write!(f, "refusal {}: {}", self.number, self.meaning())
    }
}

impl std::error::Error for Refusal {}

/// Holds the frame at byte `place` of `capture` against the profile. Bytes after the frame are not looked at; a place past the end is
/// refusal 1.
///
/// ```
/// use ferrysprig::profile::{check, Profile};
///
/// let stream = include_bytes!("../../judge/frames/rate-192-2_0-tones.ac3");
/// assert_eq!(check(stream, 768)?, Profile::Within);
/// assert_eq!(check(stream, 769).unwrap_err().number, 2); // no sync word there
/// # Ok::<(), ferrysprig::profile::Refusal>(())
/// ```
///
/// # Errors
///
/// The frame's own [`Refusal`], 1 to 23 but for 7.
pub fn check(capture: &[u8], place: usize) -> Result<Profile, Refusal> {
    in_kept_room(|room| check_into(capture, place, room).map(|(profile, _)| profile))
}

/// Does what [`check`] does, in room that the caller lends, as [`parse_into`](crate::parse_into) takes it; and gives the frame's fields from
/// there.
///
/// ```
/// use ferrysprig::profile::{check_into, Profile, Rule};
/// use ferrysprig::{MOST_ROWS, ROW_NUMBERS};
///
/// let frame = include_bytes!("../../judge/frames/header-6-both.ac3");
/// let mut room = vec![0; MOST_ROWS * ROW_NUMBERS];
/// match check_into(frame, 0, &mut room)? {
///     (Profile::Within, _) => {}
///     (Profile::Broken { rule, row }, mut fields) => {
///         let field = fields.nth(row).unwrap();
///         println!("{rule} ({} at bit {})", field.name, field.pos);
///     }
/// }
/// assert_eq!(check_into(frame, 0, &mut room[..9]).unwrap_err().number, 7); // room for one row
/// # Ok::<(), ferrysprig::profile::Refusal>(())
/// ```
///
/// # Errors
///
/// The frame's own [`Refusal`], 1 to 23.
pub fn check_into<'a>(
    capture: &[u8],
    place: usize,
    room: &'a mut [i32],
) -> Result<(Profile, Fields<'a>), Refusal> {
    let (answer, written) = raw::profile(capture, place, room);
    match answer[profile_answer_at::REFUSAL] {
        0 => Ok((
            match answer[profile_answer_at::RULE] {
                0 => Profile::Within,
                number => Profile::Broken {
                    rule: Rule::of(number),
                    row: known(answer[profile_answer_at::ROW]),
                },
            },
            Fields::new(written),
        )),
        number => Err(Refusal {
            number: known(number),
        }),
    }
}

#[cfg(test)]
mod tests {
    use super::*;

    #[test]
    fn each_rule_has_a_number_and_a_text_of_its_own() {
        for (number, rule) in (1..).zip(Rule::ALL) {
            assert_eq!((rule.number(), Rule::of(number.into())), (number, rule));
            assert_eq!(
                rule.to_string(),
                format!("rule {number}: {}", rule.meaning())
            );
            let same = |other: &&Rule| other.meaning() == rule.meaning();
            assert_eq!(Rule::ALL.iter().filter(same).count(), 1);
        }
    }

    #[test]
    #[should_panic(expected = "rule 8")]
    fn other_numbers_are_no_rules() {
        Rule::of(8);
    }
}
