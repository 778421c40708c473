//! IEC 61937 data bursts: a frame as 6,144 bytes, and back. (docs/FORMAT.md has a burst word by word.)
//!
//! Reading what was written returns the frame, writing what was read returns the burst, and two frames never give one burst: that is proved
//! (docs/PROMISES.md).
//!
//! ```
//! use ferrysprig::burst::{self, Refusal};
//!
//! let frame = include_bytes!("../../judge/frames/rate-192-2_0-tones.ac3");
//! let burst = burst::write(frame, 0)?;
//! assert_eq!(burst[..4], [0xF8, 0x72, 0x4E, 0x1F]);
//! let back = burst::read(&burst)?;
//! assert_eq!(back, frame[..back.len()]);
//!
//! assert_eq!(burst::read(&burst[1..]), Err(Refusal::NotABurst));
//! assert_eq!(burst::write(&burst, 0), Err(Refusal::Frame(2))); // no sync word at byte 0
//! assert_eq!(burst::write(&burst, 8)?, burst); // the frame stands behind four words
//! # Ok::<(), Refusal>(())
//! ```

use crate::layout::{burst_answer_at, BurstAnswer, BURST_BYTES, MOST_BYTES};
use crate::names::{known, meaning};
use crate::parser::in_kept_room;
use crate::raw;
use std::fmt;

/// The bytes of a burst.
pub const BYTES: usize = BURST_BYTES;

/// Why nothing was written, in the order in which reading looks for it. (Writing gives the frame's own refusals, then `NoRoom`.)
#[derive(Clone, Copy, Debug, PartialEq, Eq, Hash)]
#[non_exhaustive]
pub enum Refusal {
    /// 30: the burst is not 6,144 bytes.
    NotABurst,
    /// 31: the first three words are wrong outside bits 8 to 10 of the third.
    WrongWords,
    /// The frame's own refusal, by its number: that of [`crate::Refusal`], which [`crate::parse_at`] gives in full.
    Frame(u8),
    /// 32: the fourth word is not the frame's length in bits.
    WrongLength,
    /// 33: a byte after the frame is not 0.
    NotZero,
    /// 34: bits 8 to 10 of the third word are not the frame's bsmod.
    OtherBsmod,
    /// 28: the output is too short. ([`write()`] and [`read()`] have enough of it; [`write_into`] and [`read_into`] what they are lent.)
    NoRoom,
}

impl Refusal {
    /// Its number (docs/FORMAT.md).
    #[must_use]
    pub fn number(self) -> u8 {
        match self {
            Refusal::NotABurst => 30,
            Refusal::WrongWords => 31,
            Refusal::Frame(number) => number,
            Refusal::WrongLength => 32,
            Refusal::NotZero => 33,
            Refusal::OtherBsmod => 34,
            Refusal::NoRoom => 28,
        }
    }

    fn of(number: i32) -> Refusal {
        match number {
            28 => Refusal::NoRoom,
            30 => Refusal::NotABurst,
            31 => Refusal::WrongWords,
            32 => Refusal::WrongLength,
            33 => Refusal::NotZero,
            34 => Refusal::OtherBsmod,
            own => Refusal::Frame(known(own)),
        }
    }

    /// What it means.
    #[must_use]
    pub fn meaning(self) -> &'static str {
        match self {
            Refusal::NotABurst => "the burst is not 6,144 bytes",
            Refusal::WrongWords => {
                "the first three words are wrong outside bits 8 to 10 of the third"
            }
            Refusal::Frame(number) => meaning(number),
            Refusal::WrongLength => "the fourth word is not the frame's length in bits",
            Refusal::NotZero => "a byte after the frame is not 0",
            Refusal::OtherBsmod => "bits 8 to 10 of the third word are not the frame's bsmod",
            Refusal::NoRoom => "the output is too short",
        }
    }
}

impl fmt::Display for Refusal {
    fn fmt(&self, f: &mut fmt::Formatter<'_>) -> fmt::Result {
        write!(f, "refusal {}: {}", self.number(), self.meaning())
    }
}

impl std::error::Error for Refusal {}

/// The frame at byte `place` of `capture` as a burst, of [`BYTES`] bytes. Bytes after the frame are not looked at.
///
/// ```
/// use ferrysprig::burst;
///
/// let stream = include_bytes!("../../judge/frames/rate-192-2_0-tones.ac3");
/// let second = burst::write(stream, 768)?;
/// assert_eq!(second.len(), burst::BYTES);
/// assert_eq!(second[8..776], stream[768..]); // behind four words
/// # Ok::<(), burst::Refusal>(())
/// ```
///
/// # Errors
///
/// [`Refusal::Frame`].
pub fn write(capture: &[u8], place: usize) -> Result<Vec<u8>, Refusal> {
    let mut out = vec![0; BYTES];
    in_kept_room(|room| write_into(capture, place, room, &mut out).map(drop))?;
    Ok(out)
}

/// The frame of a burst, which is all of `burst`.
///
/// ```
/// use ferrysprig::burst::{self, Refusal};
///
/// let frame = include_bytes!("../../judge/frames/rate-192-2_0-tones.ac3");
/// let mut burst = burst::write(frame, 0)?;
/// burst[6143] = 1;
/// assert_eq!(burst::read(&burst), Err(Refusal::NotZero));
/// # Ok::<(), Refusal>(())
/// ```
///
/// # Errors
///
/// Any [`Refusal`] but `NoRoom`.
pub fn read(burst: &[u8]) -> Result<Vec<u8>, Refusal> {
    in_kept_room(|room| read_into(burst, room, &mut [0; MOST_BYTES]).map(<[u8]>::to_vec))
}

/// Writes as [`write()`] does, in room that the caller lends: `rows` as [`parse_into`](crate::parse_into) takes it, and `out`, whose front
/// becomes the burst. The rest of `out`, and on a refusal all of it, is not touched.
///
/// ```
/// use ferrysprig::burst::{self, Refusal};
/// use ferrysprig::{MOST_ROWS, ROW_NUMBERS};
///
/// let frame = include_bytes!("../../judge/frames/rate-192-2_0-tones.ac3");
/// let (mut rows, mut out) = ([0; MOST_ROWS * ROW_NUMBERS], [0xAA; 6144]);
/// let refused = burst::write_into(frame, 0, &mut rows, &mut out[1..]);
/// assert_eq!(refused, Err(Refusal::NoRoom));
/// assert_eq!(out, [0xAA; 6144]);
/// assert_eq!(burst::write_into(frame, 0, &mut rows, &mut out)?.len(), 6144);
/// # Ok::<(), Refusal>(())
/// ```
///
/// # Errors
///
/// [`Refusal::Frame`], or else [`Refusal::NoRoom`] where `out` is shorter than a burst.
pub fn write_into<'a>(
    capture: &[u8],
    place: usize,
    rows: &mut [i32],
    out: &'a mut [u8],
) -> Result<&'a [u8], Refusal> {
    done(raw::burst_write(capture, place, rows, out))
}

/// Reads as [`read()`] does, in room that the caller lends: `rows` as [`parse_into`](crate::parse_into) takes it, and `out`, whose front
/// becomes the frame; [`MOST_BYTES`] are always enough. The rest of `out`, and on a refusal all of it, is not touched.
///
/// ```
/// use ferrysprig::{burst, MOST_BYTES, MOST_ROWS, ROW_NUMBERS};
///
/// let stream = include_bytes!("../../judge/frames/rate-192-2_0-tones.ac3");
/// let burst = burst::write(stream, 0)?;
/// let (mut rows, mut out) = ([0; MOST_ROWS * ROW_NUMBERS], [0; MOST_BYTES]);
/// assert_eq!(burst::read_into(&burst, &mut rows, &mut out)?, &stream[..768]);
/// # Ok::<(), burst::Refusal>(())
/// ```
///
/// # Errors
///
/// Any [`Refusal`].
pub fn read_into<'a>(
    burst: &[u8],
    rows: &mut [i32],
    out: &'a mut [u8],
) -> Result<&'a [u8], Refusal> {
    done(raw::burst_read(burst, rows, out))
}

fn done((answer, written): (BurstAnswer, &[u8])) -> Result<&[u8], Refusal> {
    match answer[burst_answer_at::REFUSAL] {
        0 => Ok(written),
        number => Err(Refusal::of(number)),
    }
}
