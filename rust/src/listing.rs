//! Listings, as text and packed: the text that the listing program prints, and the binary form that a log collector takes.
//!
//! A listing is any number of rows of nine numbers and a last line, `audio` with three numbers or `refused` with five; docs/FORMAT.md has
//! both forms byte by byte. Going back returns the exact start, both ways, and every listing has one packed form: that is proved
//! (docs/PROMISES.md).
//!
//! ```
//! use ferrysprig::listing::{pack, unpack, Refusal};
//!
//! let text = b"1 1 -1 -1 -1 0 16 2935 -1\nrefused 7 1 16 0 -1\n";
//! let packed = pack(text)?;
//! assert_eq!(packed, [2, 2, 2, 0, 0, 0, 1, 17, 0xF8, 0x16, 0, 2, 8, 2, 17, 1, 0]);
//! assert_eq!(unpack(&packed)?, text);
//!
//! assert_eq!(pack(b"audio 01 2 3\n"), Err(Refusal::Malformed));
//! assert_eq!(unpack(&packed[..16]), Err(Refusal::Ends));
//! # Ok::<(), Refusal>(())
//! ```

use crate::layout::{pack_answer_at, PackAnswer};
use crate::raw;
use std::fmt;

/// Why nothing was written: the first of these that is met in reading, and `NoRoom` only where none is.
#[derive(Clone, Copy, Debug, PartialEq, Eq, Hash)]
#[non_exhaustive]
pub enum Refusal {
    /// 40: a text has a byte with which no listing goes on.
    Malformed,
    /// 41: the last group of a packed number is 0, and not its only one.
    NeedlessGroup,
    /// 42: a number is above 2,147,483,647.
    TooLarge,
    /// 43: the input ends where a listing would go on.
    Ends,
    /// 44: there are bytes after the listing.
    LeftOver,
    /// 45: the output is too short. ([`pack`] and [`unpack`] have enough of it; [`pack_into`] and [`unpack_into`] what they are lent.)
    NoRoom,
    /// 46: a packed row count is -1, or what stands for `audio` or `refused` is neither 0 nor 1.
    WrongNumber,
}

impl Refusal {
    /// All of them, in the order of their numbers.
    pub const ALL: [Refusal; 7] = [
        Refusal::Malformed,
        Refusal::NeedlessGroup,
        Refusal::TooLarge,
        Refusal::Ends,
        Refusal::LeftOver,
        Refusal::NoRoom,
        Refusal::WrongNumber,
    ];

    /// Its number (docs/FORMAT.md).
    #[must_use]
    pub fn number(self) -> u8 {
        40 + self as u8
    }

    /// What it means.
    #[must_use]
    pub fn meaning(self) -> &'static str {
        match self {
            Refusal::Malformed => "a line is malformed",
            Refusal::NeedlessGroup => "a packed number has a needless group",
            Refusal::TooLarge => "a number does not fit 32 signed bits",
            Refusal::Ends => "the input is only the beginning of a listing",
            Refusal::LeftOver => "bytes are left over after the listing",
            Refusal::NoRoom => "the output is too short for the listing",
            Refusal::WrongNumber => {
                "the row count is -1, or neither 0 nor 1 stands for audio or refused"
            }
        }
    }

    fn of(number: usize) -> Refusal {
        let known = Refusal::ALL
            .iter()
            .find(|r| usize::from(r.number()) == number);
        *known.unwrap_or_else(|| {
            panic!("libferrysprig.a gave {number}, which this crate does not know")
        })
    }
}

impl fmt::Display for Refusal {
    fn fmt(&self, f: &mut fmt::Formatter<'_>) -> fmt::Result {
        write!(f, "refusal {}: {}", self.number(), self.meaning())
    }
}

impl std::error::Error for Refusal {}

/// Bytes that no text of a packed listing of so many bytes exceeds: a group is one byte, and stands for three digits and a space at most.
#[must_use]
pub const fn most_text(packed_bytes: usize) -> usize {
    packed_bytes.saturating_mul(4)
}

/// The packed form of a listing, which is all of `text`. It is never longer than the text.
///
/// ```
/// use ferrysprig::listing::{pack, Refusal};
///
/// assert_eq!(pack(b"audio 7 8 9\n")?, [1, 1, 8, 9, 10]);
/// assert_eq!(pack(b"audio 7 8\n"), Err(Refusal::Malformed));
/// # Ok::<(), Refusal>(())
/// ```
///
/// # Errors
///
/// [`Refusal::Malformed`], `TooLarge`, `Ends` or `LeftOver`.
pub fn pack(text: &[u8]) -> Result<Vec<u8>, Refusal> {
    in_room(text.len(), |out| raw::pack(text, out).0)
}

/// The text of a packed listing, which is all of `packed`. It is never longer than [`most_text`] says, and always ASCII.
///
/// ```
/// use ferrysprig::listing::{unpack, Refusal};
///
/// assert_eq!(unpack(&[1, 1, 8, 9, 10])?, b"audio 7 8 9\n");
/// assert_eq!(unpack(&[1, 1, 8, 9, 10, 0]), Err(Refusal::LeftOver));
/// # Ok::<(), Refusal>(())
/// ```
///
/// # Errors
///
/// [`Refusal::NeedlessGroup`], `TooLarge`, `Ends`, `LeftOver` or `WrongNumber`.
pub fn unpack(packed: &[u8]) -> Result<Vec<u8>, Refusal> {
    in_room(most_text(packed.len()), |out| raw::unpack(packed, out).0)
}

/// Packs as [`pack`] does, to the front of `out`, which the caller lends. The rest of `out`, and on a refusal all of it, is not touched.
///
/// ```
/// use ferrysprig::listing::{pack_into, Refusal};
///
/// let mut out = [0xAA; 6];
/// assert_eq!(pack_into(b"audio 7 8 9\n", &mut out[..4]), Err(Refusal::NoRoom));
/// assert_eq!(pack_into(b"audio 7 8 9\n\n", &mut out[..4]), Err(Refusal::LeftOver)); // whatever the room
/// assert_eq!(out, [0xAA; 6]);
/// assert_eq!(pack_into(b"audio 7 8 9\n", &mut out)?, [1, 1, 8, 9, 10]);
/// assert_eq!(out[5], 0xAA);
/// # Ok::<(), Refusal>(())
/// ```
///
/// # Errors
///
/// Those of [`pack`], or else [`Refusal::NoRoom`].
pub fn pack_into<'a>(text: &[u8], out: &'a mut [u8]) -> Result<&'a [u8], Refusal> {
    done(raw::pack(text, out))
}

/// Unpacks as [`unpack`] does, to the front of `out`, which the caller lends. The rest of `out`, and on a refusal all of it, is not
/// touched.
///
/// ```
/// use ferrysprig::listing::{most_text, unpack_into, Refusal};
///
/// let packed = [1, 1, 8, 9, 10];
/// let mut out = vec![0; most_text(packed.len())]; // always enough
/// assert_eq!(unpack_into(&packed, &mut out)?, b"audio 7 8 9\n");
/// assert_eq!(unpack_into(&packed, &mut out[..11]), Err(Refusal::NoRoom));
/// # Ok::<(), Refusal>(())
/// ```
///
/// # Errors
///
/// Those of [`unpack`], or else [`Refusal::NoRoom`].
pub fn unpack_into<'a>(packed: &[u8], out: &'a mut [u8]) -> Result<&'a [u8], Refusal> {
    done(raw::unpack(packed, out))
}

fn done((answer, written): (PackAnswer, &[u8])) -> Result<&[u8], Refusal> {
    match answer[pack_answer_at::REFUSAL] {
        0 => Ok(written),
        number => Err(Refusal::of(number)),
    }
}

/// What is written to a list of its own.
fn in_room(bytes: usize, call: impl FnOnce(&mut [u8]) -> PackAnswer) -> Result<Vec<u8>, Refusal> {
    let mut out = vec![0; bytes];
    let answer = call(&mut out);
    done((answer, &[]))?;
    out.truncate(answer[pack_answer_at::WRITTEN]);
    Ok(out)
}

#[cfg(test)]
mod tests {
    use super::*;

    #[test]
    fn each_refusal_has_a_number_and_a_text_of_its_own() {
        for (number, refusal) in (40..).zip(Refusal::ALL) {
            assert_eq!(refusal.number(), number);
            assert_eq!(Refusal::of(number.into()), refusal);
            let text = format!("refusal {number}: {}", refusal.meaning());
            assert_eq!(refusal.to_string(), text);
            let same = |other: &&Refusal| other.meaning() == refusal.meaning();
            assert_eq!(Refusal::ALL.iter().filter(same).count(), 1);
        }
    }

    #[test]
    #[should_panic(expected = "47")]
    fn other_numbers_are_no_refusals() {
        Refusal::of(47);
    }
}
