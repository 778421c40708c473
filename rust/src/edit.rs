//! Values written into a frame.
//!
//! 39 names hold values that never steer the rest of a frame ([`Field::editable`]). In an accepted frame any values of the same width in
//! their fields give an accepted frame, whose fields are the same but for those values: that is proved (docs/PROMISES.md), and a second
//! parse tells nothing new. The flags that announce a value, as compre, are not among them.
//!
//! ```
//! use ferrysprig::edit::{self, Refusal};
//!
//! let mut stream = include_bytes!("../../judge/frames/header-production.ac3").to_vec();
//! let frame = ferrysprig::parse(&stream)?;
//! let level = frame.named("dialnorm").unwrap();
//! assert!(level.editable());
//! edit::set(&mut stream, 0, level, 24)?;
//!
//! let mut expected = frame.clone();
//! let at = frame.fields.iter().position(|field| field == level).unwrap();
//! expected.fields[at].value = 24;
//! assert_eq!(ferrysprig::parse(&stream)?, expected);
//!
//! assert_eq!(edit::set(&mut stream, 0, level, 32), Err(Refusal::TooLarge)); // it has five bits
//! # Ok::<(), Box<dyn std::error::Error>>(())
//! ```
//!
//! An edit breaks the checksums, as the crate's own page says.

use crate::{raw, Field};
use std::fmt;

/// Why nothing was written, in the order in which it is looked for.
#[derive(Clone, Copy, Debug, PartialEq, Eq, Hash)]
#[non_exhaustive]
pub enum Refusal {
    /// 57: the width is not 1 to 16.
    WrongWidth,
    /// 58: the field does not lie within the capture.
    PastTheEnd,
    /// 59: the value does not fit the width.
    TooLarge,
}

impl Refusal {
    /// Its number (docs/FORMAT.md).
    #[must_use]
    pub fn number(self) -> u8 {
        match self {
            Refusal::WrongWidth => 57,
            Refusal::PastTheEnd => 58,
            Refusal::TooLarge => 59,
        }
    }

    /// What it means.
    #[must_use]
    pub fn meaning(self) -> &'static str {
        match self {
            Refusal::WrongWidth => "the width is not 1 to 16",
            Refusal::PastTheEnd => "the field does not lie within the capture",
            Refusal::TooLarge => "the value does not fit the width",
        }
    }
}

impl fmt::Display for Refusal {
    fn fmt(&self, f: &mut fmt::Formatter<'_>) -> fmt::Result {
        write!(f, "refusal {}: {}", self.number(), self.meaning())
    }
}

impl std::error::Error for Refusal {}

/// Writes another value into a field of the frame at byte `place` of `capture`. Its bits are the value then, and all others as they were.
/// That the field may be edited is not looked at: ask [`Field::editable`]. (A span of more than 16 bits, or of none, is `WrongWidth`.)
///
/// ```
/// use ferrysprig::{edit, Role};
///
/// # let mut stream = include_bytes!("../../judge/frames/rate-192-2_0-tones.ac3").to_vec();
/// let frame = ferrysprig::parse_at(&stream, 768)?;
/// let level = frame.find(Role::Dialnorm(0), -1).unwrap();
/// edit::set(&mut stream, 768, level, 5)?;
/// assert_eq!(ferrysprig::header_at(&stream, 768)?.value(Role::Dialnorm(0)), Some(5));
/// # Ok::<(), Box<dyn std::error::Error>>(())
/// ```
///
/// # Errors
///
/// Any [`Refusal`]; of a field that parsing gave, and that is no span, [`Refusal::TooLarge`] alone.
pub fn set(capture: &mut [u8], place: usize, field: &Field, value: u32) -> Result<(), Refusal> {
    // (A value of 32 bits fits 64, for which alone the archive is built.)
    set_bits(capture, place, field.pos, field.width, value as usize)
}

/// Writes a value of `width` bits, most significant first, at bit `position` of what begins at byte `place` of `capture`. Those bits are
/// the value then, and all others as they were. On a refusal nothing is written.
///
/// ```
/// use ferrysprig::edit::{set_bits, Refusal};
///
/// let mut capture = [0; 3];
/// set_bits(&mut capture, 1, 4, 8, 0xB7)?;
/// assert_eq!(capture, [0x00, 0x0B, 0x70]);
/// assert_eq!(set_bits(&mut capture, 1, 4, 17, 0), Err(Refusal::WrongWidth));
/// assert_eq!(set_bits(&mut capture, 1, 9, 8, 0), Err(Refusal::PastTheEnd));
/// assert_eq!(set_bits(&mut capture, 1, 4, 8, 256), Err(Refusal::TooLarge));
/// assert_eq!(capture, [0x00, 0x0B, 0x70]);
/// # Ok::<(), Refusal>(())
/// ```
///
/// # Errors
///
/// Any [`Refusal`].
pub fn set_bits(
    capture: &mut [u8],
    place: usize,
    position: usize,
    width: usize,
    value: usize,
) -> Result<(), Refusal> {
    match raw::set(capture, place, position, width, value) {
        0 => Ok(()),
        57 => Err(Refusal::WrongWidth),
        58 => Err(Refusal::PastTheEnd),
        59 => Err(Refusal::TooLarge),
        other => panic!("libferrysprig.a gave {other}, which this crate does not know"),
    }
}
