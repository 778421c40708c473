//! Level correction in the frame: the dialogue level of a programme, with both checksums mended.
//!
//! The level is written, then crc1, then crc2. If crc2 would be the sync word 0x0B77, the bit before it, crcrsv, is flipped first. Nothing
//! else in the frame changes; the frame is accepted as it was, with the same fields but for those values; both checksums are right; and a
//! second identical call changes nothing: that is proved (docs/PROMISES.md).
//!
//! ```
//! use ferrysprig::level::{correct_level, Changed, Refusal};
//!
//! let mut frame = include_bytes!("../../judge/frames/header-production.ac3").to_vec();
//! let changes = correct_level(&mut frame, 0, 1, 24)?; // the first programme: they are counted from one
//! assert_eq!(changes[1].to_string(), "dialnorm 20 -> 24");
//! assert_eq!(changes.iter().map(|c| c.field).collect::<Vec<_>>(), [Changed::Crc1, Changed::Dialnorm]);
//! assert!(correct_level(&mut frame, 0, 1, 24)?.is_empty());
//!
//! assert_eq!(correct_level(&mut frame, 0, 2, 24), Err(Refusal::NoSuchProgramme));
//! assert_eq!(correct_level(&mut frame, 0, 1, 0), Err(Refusal::WrongLevel));
//! # Ok::<(), Refusal>(())
//! ```

use crate::layout::{change_at, level_answer_at, tail_name, CHANGE_NUMBERS, MOST_CHANGES};
use crate::names::{known, meaning, name_of};
use crate::parser::in_kept_room;
use crate::raw;
use std::fmt;
use std::ops::Deref;

/// A field that a correction can change, in frame order.
#[derive(Clone, Copy, Debug, PartialEq, Eq, PartialOrd, Ord, Hash)]
pub enum Changed {
    /// The checksum of the first five eighths.
    Crc1,
    /// The first programme's level.
    Dialnorm,
    /// The second programme's level.
    Dialnorm2,
    /// The bit before crc2.
    Crcrsv,
    /// The checksum of the whole frame.
    Crc2,
}

impl Changed {
    /// Its name, as the original spells it.
    #[must_use]
    pub fn name(self) -> &'static str {
        match self {
            Changed::Crc1 => "crc1",
            Changed::Dialnorm => "dialnorm",
            Changed::Dialnorm2 => "dialnorm2",
            Changed::Crcrsv => "crcrsv",
            Changed::Crc2 => "crc2",
        }
    }

    /// By its number in the list of changes.
    fn of(number: i32) -> Changed {
        match number {
            tail_name::CRCRSV => Changed::Crcrsv,
            tail_name::CRC2 => Changed::Crc2,
            of_a_row => match name_of(of_a_row) {
                "crc1" => Changed::Crc1,
                "dialnorm" => Changed::Dialnorm,
                "dialnorm2" => Changed::Dialnorm2,
                other => panic!("libferrysprig.a says that {other} changed, which cannot be"),
            },
        }
    }
}

/// A field whose value is another one now.
#[derive(Clone, Copy, Debug, PartialEq, Eq, Hash)]
#[non_exhaustive]
pub struct Change {
    /// Which field.
    pub field: Changed,
    /// Its value before.
    pub old: u16,
    /// Its value now.
    pub new: u16,
}

impl fmt::Display for Change {
    fn fmt(&self, f: &mut fmt::Formatter<'_>) -> fmt::Result {
        let (name, old, new) = (self.field.name(), self.old, self.new);
        match self.field {
            Changed::Crc1 | Changed::Crc2 => write!(f, "{name} 0x{old:04x} -> 0x{new:04x}"),
            _ => write!(f, "{name} {old} -> {new}"),
        }
    }
}

/// What a correction changed: at most four fields, in frame order; none if all was as it should be. It is a slice of [`Change`].
#[derive(Clone, Copy, PartialEq, Eq, Hash)]
pub struct Changes {
    list: [Change; MOST_CHANGES],
    count: usize,
}

impl Changes {
    fn new(numbers: &[i32]) -> Changes {
        // (Those past the count are never shown.)
        let none = Change {
            field: Changed::Crc1,
            old: 0,
            new: 0,
        };
        let mut list = [none; MOST_CHANGES];
        for (change, numbers) in list.iter_mut().zip(numbers.chunks(CHANGE_NUMBERS)) {
            *change = Change {
                field: Changed::of(numbers[change_at::NAME]),
                old: known(numbers[change_at::OLD]),
                new: known(numbers[change_at::NEW]),
            };
        }
        let count = numbers.len() / CHANGE_NUMBERS;
        Changes { list, count }
    }
}

impl Deref for Changes {
    type Target = [Change];

    fn deref(&self) -> &[Change] {
        &self.list[..self.count]
    }
}

impl<'a> IntoIterator for &'a Changes {
    type Item = &'a Change;
    type IntoIter = std::slice::Iter<'a, Change>;

    fn into_iter(self) -> Self::IntoIter {
        self.iter()
    }
}

impl fmt::Debug for Changes {
    fn fmt(&self, f: &mut fmt::Formatter<'_>) -> fmt::Result {
        f.debug_list().entries(self.iter()).finish()
    }
}

/// Why nothing was written, in the order in which it is looked for.
#[derive(Clone, Copy, Debug, PartialEq, Eq, Hash)]
#[non_exhaustive]
pub enum Refusal {
    /// The frame's own refusal, by its number: that of [`crate::Refusal`], which [`crate::parse_at`] gives in full.
    Frame(u8),
    /// 50: the frame has no such programme. The first is 1; only frames with acmod 0 have a second, 2.
    NoSuchProgramme,
    /// 51: the level is not 1 to 31.
    WrongLevel,
    /// 52: the audio ends so late that auxdatae, crcrsv and crc2, the frame's last 18 bits, are part of it.
    NoTail,
}

impl Refusal {
    /// Its number (docs/FORMAT.md).
    #[must_use]
    pub fn number(self) -> u8 {
        match self {
            Refusal::Frame(number) => number,
            Refusal::NoSuchProgramme => 50,
            Refusal::WrongLevel => 51,
            Refusal::NoTail => 52,
        }
    }

    fn of(number: i32) -> Refusal {
        match number {
            50 => Refusal::NoSuchProgramme,
            51 => Refusal::WrongLevel,
            52 => Refusal::NoTail,
            own => Refusal::Frame(known(own)),
        }
    }

    /// What it means.
    #[must_use]
    pub fn meaning(self) -> &'static str {
        match self {
            Refusal::Frame(number) => meaning(number),
            Refusal::NoSuchProgramme => "the frame has no such programme",
            Refusal::WrongLevel => "the level is not 1 to 31",
            Refusal::NoTail => "the audio ends later than 18 bits before the frame's end",
        }
    }
}

impl fmt::Display for Refusal {
    fn fmt(&self, f: &mut fmt::Formatter<'_>) -> fmt::Result {
        write!(f, "refusal {}: {}", self.number(), self.meaning())
    }
}

impl std::error::Error for Refusal {}

/// Writes the dialogue level of a programme into the frame at byte `place` of `capture`, and mends both checksums. Programmes are counted
/// from one; the level is 1 to 31, in dB below full scale. Bytes before the place and after the frame stay as they are, and on a refusal so
/// does the frame.
///
/// ```
/// use ferrysprig::level::correct_level;
///
/// # let mut stream = include_bytes!("../../judge/frames/header-mix-levels.ac3").to_vec();
/// let changes = correct_level(&mut stream, 768, 1, 24)?; // of the second frame
/// assert_eq!(changes.last().unwrap().to_string(), "dialnorm 31 -> 24");
/// let header = ferrysprig::header_at(&stream, 768).unwrap();
/// assert_eq!(header.named("dialnorm").map(|field| field.value), Some(24));
/// # Ok::<(), ferrysprig::level::Refusal>(())
/// ```
///
/// # Errors
///
/// Any [`Refusal`]; of the frame's own 7 is not given.
pub fn correct_level(
    capture: &mut [u8],
    place: usize,
    programme: usize,
    level: usize,
) -> Result<Changes, Refusal> {
    in_kept_room(|room| correct_level_into(capture, place, programme, level, room))
}

/// Does what [`correct_level`] does, in room that the caller lends, as [`parse_into`](crate::parse_into) takes it. The rows there are those
/// of the frame as it was.
///
/// ```
/// use ferrysprig::level::{correct_level_into, Refusal};
/// use ferrysprig::{MOST_ROWS, ROW_NUMBERS};
///
/// # let mut stream = include_bytes!("../../judge/frames/header-mix-levels.ac3").to_vec();
/// let mut rows = [0; MOST_ROWS * ROW_NUMBERS];
/// assert_eq!(correct_level_into(&mut stream, 0, 1, 24, &mut rows[..9]), Err(Refusal::Frame(7))); // room for one row
/// assert_eq!(correct_level_into(&mut stream, 0, 1, 24, &mut rows)?.len(), 2); // crc1 and dialnorm
/// # Ok::<(), Refusal>(())
/// ```
///
/// # Errors
///
/// Any [`Refusal`].
pub fn correct_level_into(
    capture: &mut [u8],
    place: usize,
    programme: usize,
    level: usize,
    rows: &mut [i32],
) -> Result<Changes, Refusal> {
    let mut changes = [0; MOST_CHANGES * CHANGE_NUMBERS];
    let (answer, listed) = raw::correct(capture, place, programme, level, rows, &mut changes);
    match answer[level_answer_at::REFUSAL] {
        0 => Ok(Changes::new(listed)),
        number => Err(Refusal::of(number)),
    }
}

#[cfg(test)]
mod tests {
    use super::*;

    #[test]
    fn changes_by_their_numbers() {
        let changes = Changes::new(&[2, 0, 0x1234, 20, 27, 24, 112, 0, 1, 113, 0xFFFF, 0x8B72]);
        let texts: Vec<String> = changes.iter().map(Change::to_string).collect();
        assert_eq!(
            texts,
            [
                "crc1 0x0000 -> 0x1234",
                "dialnorm2 27 -> 24",
                "crcrsv 0 -> 1",
                "crc2 0xffff -> 0x8b72"
            ]
        );
        assert_eq!(Changes::new(&[]).len(), 0);
        assert_eq!(Changes::new(&[12, 1, 2])[0].field, Changed::Dialnorm);
    }

    #[test]
    #[should_panic(expected = "bsid")]
    fn other_fields_do_not_change() {
        Changes::new(&[5, 1, 2]);
    }
}
