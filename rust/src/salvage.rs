//! Salvage of a broken capture: what is left of its frames, one after the other, and a list of frames and gaps.
//!
//! The walk begins at byte 0. Where a frame is accepted it is listed and passed over, elsewhere the walk moves one byte; what lies between
//! frames is a gap. So each byte of the capture is in exactly one entry of the list, two gaps never follow each other, every listed frame
//! is one that [`parse_at`](crate::parse_at) accepts there, and a capture without a gap comes out the same: that is proved
//! (docs/PROMISES.md).
//!
//! ```
//! use ferrysprig::salvage::{salvage, Entry};
//!
//! let stream = include_bytes!("../../judge/frames/rate-192-2_0-tones.ac3");
//! assert_eq!(stream.len(), 2 * 768);
//! let mut damaged = stream.to_vec();
//! damaged.splice(100..100, [0x0B; 7]); // seven bytes too many, inside the first frame
//!
//! let salvaged = salvage(&damaged);
//! let lost = Entry::Gap { place: 0, length: 775 };
//! let left = Entry::Frame { place: 775, length: 768 };
//! assert_eq!(salvaged.entries, [lost, left]);
//! assert_eq!(salvaged.frames, stream[768..]);
//! ```
//!
//! **A frame that is accepted need not be sound.** Parsing looks at a frame as far as the end of its audio, and neither at mantissas nor at
//! checksums: where bytes are lost from the mantissas, the frame may be accepted with the beginning of the next one as its end. Hold crc1
//! and crc2 against the frames where that matters.
//!
//! # How much memory
//!
//! | | holds at once |
//! |---|---|
//! | [`salvage()`] | beside the capture as many bytes again, and 0.4 times as many for the list |
//! | [`salvage_into`] | nothing: all room is lent |
//! | [`salvage_stream`] | 2.6 MB, however long the capture is |
//! | [`salvage_file`] | the same, and 24 bytes for each entry: 65 MB for a day of 2.7 million frames |
//!
//! The last two read the capture in pieces of a mebibyte. (That pieces make no difference is tested, and not proved. It rests on what is
//! proved of a parse: bytes that come later change refusals 1 and 4 alone, and no frame has more than 3,840 bytes.)

use crate::layout::{entry_at, kind, salvage_answer_at, ENTRY_NUMBERS, LEAST_BYTES, MOST_BYTES};
use crate::parser::in_kept_room;
use crate::raw;
use std::fmt;
use std::fs::File;
use std::io::{self, BufRead, BufReader, Read, Write};
use std::ops::Range;
use std::path::Path;

/// A frame or a gap of a capture. Places are bytes, counted from the capture's first.
#[derive(Clone, Copy, Debug, PartialEq, Eq, Hash)]
pub enum Entry {
    /// A frame that parsing accepts there, and that was written to the output.
    Frame {
        /// Its first byte.
        place: usize,
        /// Its bytes.
        length: usize,
    },
    /// Bytes at none of which a frame begins that parsing accepts; at least one.
    Gap {
        /// Its first byte.
        place: usize,
        /// Its bytes.
        length: usize,
    },
}

impl Entry {
    fn of(numbers: &[usize]) -> Entry {
        let (place, length) = (numbers[entry_at::PLACE], numbers[entry_at::LENGTH]);
        match numbers[entry_at::KIND] {
            kind::FRAME => Entry::Frame { place, length },
            kind::GAP => Entry::Gap { place, length },
            other => panic!("libferrysprig.a listed kind {other}, which this crate does not know"),
        }
    }

    /// Its bytes in the capture.
    ///
    /// ```
    /// use ferrysprig::salvage::Entry;
    ///
    /// assert_eq!(Entry::Gap { place: 100, length: 7 }.range(), 100..107);
    /// ```
    #[must_use]
    pub fn range(self) -> Range<usize> {
        let (Entry::Frame { place, length } | Entry::Gap { place, length }) = self;
        place..place + length
    }

    /// Whether it is a gap.
    #[must_use]
    pub fn is_gap(self) -> bool {
        matches!(self, Entry::Gap { .. })
    }

    /// The same in a capture that begins so many bytes earlier.
    fn after(self, bytes: usize) -> Entry {
        match self {
            Entry::Frame { place, length } => Entry::Frame {
                place: bytes + place,
                length,
            },
            Entry::Gap { place, length } => Entry::Gap {
                place: bytes + place,
                length,
            },
        }
    }
}

/// Why the walk stopped before the capture's end, in the order in which it is looked for at one frame. (Before a frame's checks the gap
/// before it is entered, which may give `NoEntry`.)
#[derive(Clone, Copy, Debug, PartialEq, Eq, Hash)]
#[non_exhaustive]
pub enum Refusal {
    /// 37: the rows do not suffice at a place: parsing answers 7 there. With room for [`MOST_ROWS`](crate::MOST_ROWS) rows it is not given.
    NoRow,
    /// 36: no entry of the list is left.
    NoEntry,
    /// 35: the output has too little left for a frame.
    NoOutput,
}

impl Refusal {
    /// Its number (docs/FORMAT.md).
    #[must_use]
    pub fn number(self) -> u8 {
        match self {
            Refusal::NoRow => 37,
            Refusal::NoEntry => 36,
            Refusal::NoOutput => 35,
        }
    }

    fn of(number: usize) -> Refusal {
        match number {
            35 => Refusal::NoOutput,
            36 => Refusal::NoEntry,
            37 => Refusal::NoRow,
            other => panic!("libferrysprig.a gave {other}, which this crate does not know"),
        }
    }

    /// What it means.
    #[must_use]
    pub fn meaning(self) -> &'static str {
        match self {
            Refusal::NoRow => "the rows do not suffice for a place of the capture",
            Refusal::NoEntry => "no entry of the list is left",
            Refusal::NoOutput => "the output has too little left for a frame",
        }
    }
}

impl fmt::Display for Refusal {
    fn fmt(&self, f: &mut fmt::Formatter<'_>) -> fmt::Result {
        write!(f, "refusal {}: {}", self.number(), self.meaning())
    }
}

impl std::error::Error for Refusal {}

/// What is left of a capture.
#[derive(Clone, Debug, PartialEq, Eq, Hash)]
#[non_exhaustive]
pub struct Salvaged {
    /// Frames and gaps, end to end from byte 0 to the capture's end.
    pub entries: Vec<Entry>,
    /// The bytes of the frames, one after the other.
    pub frames: Vec<u8>,
}

/// Goes through a capture. There is room for whatever it holds, so nothing is refused; an empty capture has no entry.
///
/// ```
/// use ferrysprig::salvage::{salvage, Entry};
///
/// let stream = include_bytes!("../../judge/frames/rate-192-2_0-tones.ac3");
/// let salvaged = salvage(&stream[..1000]); // the second frame is cut
/// assert_eq!(salvaged.entries[1], Entry::Gap { place: 768, length: 232 });
/// assert_eq!(salvaged.frames, stream[..768]);
/// ```
#[must_use]
pub fn salvage(capture: &[u8]) -> Salvaged {
    let mut list = vec![0; ENTRY_NUMBERS * most_entries(capture.len())];
    let mut frames = vec![0; capture.len()];
    let (entries, written): (Vec<Entry>, usize) = in_kept_room(|rows| {
        let left = all(capture, rows, &mut list, &mut frames);
        (left.entries().collect(), left.frames.len())
    });
    frames.truncate(written);
    Salvaged { entries, frames }
}

/// Entries that no list of a capture of so many bytes exceeds: a frame has 128 bytes at least, and no gap follows another.
#[must_use]
pub const fn most_entries(bytes: usize) -> usize {
    2 * (bytes / LEAST_BYTES) + 1
}

/// What stands in lent rooms after a walk.
#[derive(Clone, Copy, Debug)]
#[non_exhaustive]
pub struct Lent<'a> {
    list: &'a [usize],
    /// The bytes of the listed frames, one after the other: the front of `out`.
    pub frames: &'a [u8],
}

impl<'a> Lent<'a> {
    /// Frames and gaps, end to end from byte 0: the front of `list`, three numbers to an entry.
    pub fn entries(&self) -> impl ExactSizeIterator<Item = Entry> + 'a {
        self.list.chunks_exact(ENTRY_NUMBERS).map(Entry::of)
    }

    /// The first byte of the capture that is in no entry. After a refusal a walk can go on there.
    #[must_use]
    pub fn end(&self) -> usize {
        self.entries().last().map_or(0, |entry| entry.range().end)
    }
}

/// A walk that stopped before the capture's end: why, and what it left. What was written stays: whole entries, and the frames among them.
///
/// It refers to the lent rooms. To pass the error on, take its [`Refusal`], which `?` does where that is asked for:
///
/// ```
/// use ferrysprig::salvage::{salvage_into, Refusal};
///
/// fn frames(capture: &[u8], out: &mut [u8]) -> Result<usize, Refusal> {
///     Ok(salvage_into(capture, &mut [0; 9], &mut [0; 3], out)?.frames.len())
/// }
/// let stream = include_bytes!("../../judge/frames/rate-192-2_0-tones.ac3");
/// assert_eq!(frames(stream, &mut []), Err(Refusal::NoRow)); // room for one row
/// ```
#[derive(Clone, Copy, Debug)]
#[non_exhaustive]
pub struct Stopped<'a> {
    /// Why.
    pub refusal: Refusal,
    /// What it left.
    pub left: Lent<'a>,
}

impl fmt::Display for Stopped<'_> {
    fn fmt(&self, f: &mut fmt::Formatter<'_>) -> fmt::Result {
        write!(f, "{}", self.refusal)
    }
}

impl std::error::Error for Stopped<'_> {}

impl From<Stopped<'_>> for Refusal {
    fn from(stopped: Stopped<'_>) -> Refusal {
        stopped.refusal
    }
}

/// Goes through a capture in room that the caller lends: `rows` as [`parse_into`](crate::parse_into) takes it, `list`, three numbers to an
/// entry, and `out`. The rest of `list` and `out` is not touched, on refusals too. With [`MOST_ROWS`](crate::MOST_ROWS) rows,
/// [`most_entries`] and as many bytes as the capture has, nothing is refused.
///
/// With less the walk can go on where it stopped. Here the list has room for three entries, and the output for one frame:
///
/// ```
/// use ferrysprig::salvage::{salvage, salvage_into, Entry, Refusal};
/// use ferrysprig::{MOST_BYTES, MOST_ROWS, ROW_NUMBERS};
///
/// let stream = include_bytes!("../../judge/frames/rate-192-2_0-tones.ac3");
/// let capture = [&[1, 2, 3], &stream[..], &[4], &stream[..]].concat();
///
/// let mut rows = [0; MOST_ROWS * ROW_NUMBERS];
/// let (mut list, mut out) = ([0; 9], [0; MOST_BYTES]);
/// let (mut place, mut ranges, mut frames) = (0, Vec::new(), Vec::new());
/// loop {
///     let walk = salvage_into(&capture[place..], &mut rows, &mut list, &mut out);
///     let left = match &walk {
///         Ok(left) => left,
///         Err(stopped) if stopped.refusal == Refusal::NoRow => unreachable!(), // there is room for any frame
///         Err(stopped) => &stopped.left,
///     };
///     // Places are counted from the part's first byte.
///     ranges.extend(left.entries().map(|e| place + e.range().start..place + e.range().end));
///     frames.extend_from_slice(left.frames);
///     place += left.end();
///     if walk.is_ok() {
///         break;
///     }
/// }
/// assert_eq!(place, capture.len());
/// assert_eq!(frames, salvage(&capture).frames);
/// assert!(ranges.into_iter().eq(salvage(&capture).entries.into_iter().map(Entry::range)));
/// ```
///
/// # Errors
///
/// [`Stopped`], with any [`Refusal`] and what was written before.
pub fn salvage_into<'a>(
    capture: &[u8],
    rows: &mut [i32],
    list: &'a mut [usize],
    out: &'a mut [u8],
) -> Result<Lent<'a>, Stopped<'a>> {
    let (answer, list, frames) = raw::salvage(capture, rows, list, out);
    let left = Lent { list, frames };
    match answer[salvage_answer_at::REFUSAL] {
        0 => Ok(left),
        number => Err(Stopped {
            refusal: Refusal::of(number),
            left,
        }),
    }
}

/// The same where there is room for all.
fn all<'a>(capture: &[u8], rows: &mut [i32], list: &'a mut [usize], out: &'a mut [u8]) -> Lent<'a> {
    salvage_into(capture, rows, list, out).expect("there is room for all")
}

/// What kept a file or a stream from being salvaged.
#[derive(Debug)]
#[non_exhaustive]
pub enum Trouble {
    /// The capture could not be read.
    Read(io::Error),
    /// The frames could not be written.
    Write(io::Error),
}

impl fmt::Display for Trouble {
    fn fmt(&self, f: &mut fmt::Formatter<'_>) -> fmt::Result {
        match self {
            Trouble::Read(why) => write!(f, "cannot read the capture: {why}"),
            Trouble::Write(why) => write!(f, "cannot write the frames: {why}"),
        }
    }
}

impl std::error::Error for Trouble {
    fn source(&self) -> Option<&(dyn std::error::Error + 'static)> {
        let (Trouble::Read(why) | Trouble::Write(why)) = self;
        Some(why)
    }
}

/// Salvages a file: writes the frames of `input` to `output`, one after the other, and gives the list. A file of any length will do.
///
/// `output` must not exist yet, so that no capture is written over, itself least of all. Where the capture cannot be read it is not made;
/// where the trouble comes later, it holds what was written before.
///
/// ```
/// use ferrysprig::salvage::{salvage_file, Entry};
///
/// # let folder = std::env::temp_dir().join(format!("ferrysprig-salvage-{}", std::process::id()));
/// # std::fs::create_dir_all(&folder).unwrap();
/// # let (damaged, clean) = (folder.join("damaged.ac3"), folder.join("clean.ac3"));
/// # let stream = include_bytes!("../../judge/frames/rate-192-2_0-tones.ac3");
/// std::fs::write(&damaged, [&[1, 2, 3], &stream[..]].concat())?;
/// let entries = salvage_file(&damaged, &clean)?;
/// assert_eq!(entries.len(), 3);
/// assert_eq!(entries[0], Entry::Gap { place: 0, length: 3 });
/// assert_eq!(std::fs::read(&clean)?, stream);
///
/// let refused = salvage_file(&damaged, &damaged).unwrap_err();
/// assert!(refused.to_string().starts_with("cannot write the frames: "));
/// # std::fs::remove_dir_all(&folder)?;
/// # Ok::<(), Box<dyn std::error::Error>>(())
/// ```
///
/// # Errors
///
/// [`Trouble`] with either file.
pub fn salvage_file(
    input: impl AsRef<Path>,
    output: impl AsRef<Path>,
) -> Result<Vec<Entry>, Trouble> {
    let mut capture = BufReader::new(File::open(input).map_err(Trouble::Read)?);
    // A folder can be opened, and not read.
    capture.fill_buf().map_err(Trouble::Read)?;
    let frames = File::options().write(true).create_new(true).open(output);
    let mut entries = Vec::new();
    salvage_stream(capture, frames.map_err(Trouble::Write)?, |entry| {
        entries.push(entry)
    })?;
    Ok(entries)
}

/// Salvages a stream: reads the capture from `input`, writes its frames to `output`, one after the other, and hands each entry to `each`,
/// in order, once its frame is written. What it holds at once does not grow with the capture.
///
/// ```
/// use ferrysprig::salvage::{salvage_stream, Entry};
///
/// let stream = include_bytes!("../../judge/frames/rate-192-2_0-tones.ac3");
/// let capture = [&stream[..], &[0x0B, 0x77]].concat();
/// let (mut frames, mut gaps) = (Vec::new(), Vec::new());
/// salvage_stream(&capture[..], &mut frames, |entry| {
///     if entry.is_gap() {
///         gaps.push(entry.range());
///     }
/// })?;
/// assert_eq!(frames, stream);
/// assert_eq!(gaps, [stream.len()..capture.len()]);
/// # Ok::<(), ferrysprig::salvage::Trouble>(())
/// ```
///
/// # Errors
///
/// [`Trouble`] with either stream.
pub fn salvage_stream(
    input: impl Read,
    output: impl Write,
    each: impl FnMut(Entry),
) -> Result<(), Trouble> {
    in_pieces(1 << 20, input, output, each)
}

/// The stream in pieces of so many bytes, at least as many as a frame can have.
fn in_pieces(
    most: usize,
    mut input: impl Read,
    mut output: impl Write,
    mut each: impl FnMut(Entry),
) -> Result<(), Trouble> {
    let mut piece = Vec::with_capacity(most);
    let mut list = vec![0; ENTRY_NUMBERS * most_entries(most)];
    let mut frames = vec![0; most];
    // Where the piece begins, and where the bytes begin that are in no entry yet.
    let (mut begin, mut first) = (0, 0);
    loop {
        let missing = most - piece.len();
        let read = input.by_ref().take(missing as u64).read_to_end(&mut piece);
        let ended = read.map_err(Trouble::Read)? < missing;
        let decided = in_kept_room(|rows| {
            let left = all(&piece, rows, &mut list, &mut frames);
            Decided::of(left, piece.len(), ended)
        });
        output
            .write_all(&frames[..decided.bytes])
            .map_err(Trouble::Write)?;
        let listed = list.chunks_exact(ENTRY_NUMBERS).take(decided.entries);
        for frame in listed.map(Entry::of).filter(|entry| !entry.is_gap()) {
            let frame = frame.after(begin);
            let Range { start, end } = frame.range();
            if first < start {
                each(gap(first, start));
            }
            each(frame);
            first = end;
        }
        piece.drain(..decided.end);
        begin += decided.end;
        if ended {
            if first < begin {
                each(gap(first, begin));
            }
            return output.flush().map_err(Trouble::Write);
        }
    }
}

fn gap(place: usize, end: usize) -> Entry {
    Entry::Gap {
        place,
        length: end - place,
    }
}

/// How far the bytes that come after a piece can change nothing: entries of its list, bytes of their frames, and bytes of the piece. A gap
/// may go on.
struct Decided {
    entries: usize,
    bytes: usize,
    end: usize,
}

impl Decided {
    /// A frame stays a frame. A place in a gap stays one if whatever could begin there has all of its bytes. From the first other place on
    /// the walk may take another way.
    fn of(left: Lent<'_>, length: usize, ended: bool) -> Decided {
        let certain = if ended {
            length
        } else {
            length + 1 - MOST_BYTES
        };
        let mut decided = Decided {
            entries: 0,
            bytes: 0,
            end: 0,
        };
        for entry in left.entries() {
            let Range { start, end } = entry.range();
            if entry.is_gap() && certain < end {
                decided.end = certain.max(start);
                break;
            }
            decided.entries += 1;
            decided.bytes += if entry.is_gap() { 0 } else { end - start };
            decided.end = end;
        }
        decided
    }
}

#[cfg(test)]
mod tests {
    use super::*;
    use judge::rng::Rng;

    /// A capture in pieces of some sizes, beside the whole.
    fn same_in_pieces(capture: &[u8], sizes: &[usize]) {
        let whole = salvage(capture);
        for most in sizes {
            let (mut frames, mut entries) = (Vec::new(), Vec::new());
            in_pieces(*most, capture, &mut frames, |e| entries.push(e)).unwrap();
            assert_eq!(entries, whole.entries, "pieces of {most}");
            assert_eq!(frames, whole.frames, "pieces of {most}");
        }
    }

    /// The encoder's streams with bytes lost, and with false beginnings of frames.
    #[test]
    fn pieces_make_no_difference() {
        let mut rng = Rng(8);
        let mut longest = 0;
        for (_, stream) in judge::frames::kept() {
            let mut capture = stream[..stream.len().min(12_000)].to_vec();
            for _ in 0..4 {
                let at = rng.below(capture.len());
                let end = capture.len().min(at + rng.below(300));
                let put = rng.below(20);
                capture.splice(at..end, stream[..put].iter().copied());
            }
            longest = longest.max(capture.len());
            // (In a gap a piece advances by what it has more than a frame.)
            let any = 4400 + rng.below(3000);
            same_in_pieces(&capture, &[any]);
        }
        assert!(longest > 10_000, "{longest} bytes");
    }

    /// The largest frame, so many bytes before and behind the end of a piece.
    #[test]
    fn a_frame_across_two_pieces() {
        let largest = judge::craft::sized(2, 37, &|_| None);
        for before in [0, 1, 159, 160, 161] {
            let capture = [&vec![0x0B; before], &largest[..], &largest[..200]].concat();
            same_in_pieces(&capture, &[3840, 3841, 4000]);
            same_in_pieces(&[&largest[..], &capture].concat(), &[3840, 4000, 7680]);
        }
    }

    /// Captures that end where a piece does.
    #[test]
    fn a_whole_number_of_pieces() {
        for length in [0, 1, 3839, 3840, 3841, 7680] {
            same_in_pieces(&vec![0x0B; length], &[3840]);
        }
        let stream = judge::craft::small(&|_| None).repeat(60);
        same_in_pieces(&stream, &[3840, 7680]);
        same_in_pieces(&stream[1..], &[3840]);
    }
}
