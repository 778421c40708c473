//! An index beside a capture: for each frame its place, its length, its channels and its dialogue levels, so that the frame where the level
//! changed is found without parsing the day again.
//!
//! A capture grows while it is recorded. [`Index::extend`] enters what was appended, at the cost of what was appended: the walk goes on from
//! the end of the last frame. An index that was extended is the one that would be made afresh, however the bytes came: that is proved
//! (docs/PROMISES.md).
//!
//! ```
//! use ferrysprig::index::Index;
//!
//! let stream = include_bytes!("../../judge/frames/header-mix-levels.ac3");
//! assert_eq!(stream.len(), 2 * 768);
//! let mut capture = stream[..1000].to_vec(); // the second frame is still coming
//! let mut index = Index::of(&capture);
//! assert_eq!(index.len(), 1);
//!
//! capture.extend_from_slice(&stream[1000..]);
//! assert_eq!(index.extend(&capture), Ok(1));
//! assert_eq!(index, Index::of(&capture));
//!
//! let last = index.last().unwrap();
//! assert_eq!((last.place, last.length), (768, 768));
//! assert_eq!((last.acmod, last.dialnorm, last.dialnorm2), (7, 31, None));
//! ```
//!
//! Its frames are those that [`salvage`](crate::salvage) lists, as far as the first place where more bytes could make a difference: where
//! parsing answers 1 or 4, the input being too short. (No other refusal can change when bytes come.) So a frame that is not yet whole is
//! not in the index, and nothing behind it is.

use crate::layout::{
    index_answer_at, index_entry_at, INDEX_ENTRY_NUMBERS, LEAST_BYTES, MOST_BYTES,
};
use crate::parser::in_kept_room;
use crate::raw;
use std::fmt;
use std::ops::Range;

/// A frame of a capture.
#[derive(Clone, Copy, Debug, PartialEq, Eq, Hash)]
#[non_exhaustive]
pub struct Entry {
    /// Its first byte, counted from the capture's first.
    pub place: usize,
    /// Its bytes.
    pub length: usize,
    /// Which channels there are.
    pub acmod: u8,
    /// The dialogue level, of the first programme if there are two.
    pub dialnorm: u8,
    /// The dialogue level of the second programme, which there is with acmod 0.
    pub dialnorm2: Option<u8>,
}

impl Entry {
    /// Five numbers, if they are such as an index has.
    fn read(numbers: &[usize]) -> Option<Entry> {
        let small = |at: usize| u8::try_from(numbers[at]).ok();
        let level = |at: usize| small(at).filter(|level| *level < 32);
        let acmod = small(index_entry_at::ACMOD).filter(|acmod| *acmod < 8)?;
        let second = level(index_entry_at::DIALNORM2)?;
        let entry = Entry {
            place: numbers[index_entry_at::PLACE],
            length: numbers[index_entry_at::LENGTH],
            acmod,
            dialnorm: level(index_entry_at::DIALNORM)?,
            dialnorm2: (acmod == 0).then_some(second),
        };
        let sized = (LEAST_BYTES..=MOST_BYTES).contains(&entry.length);
        let ends = entry.place.checked_add(entry.length).is_some();
        (sized && ends && (acmod == 0 || second == 0)).then_some(entry)
    }

    /// Five numbers of the archive's.
    fn of(numbers: &[usize]) -> Entry {
        Entry::read(numbers).unwrap_or_else(|| {
            panic!("libferrysprig.a entered {numbers:?}, which this crate does not know")
        })
    }

    /// Its bytes in the capture.
    #[must_use]
    pub fn range(&self) -> Range<usize> {
        self.place..self.place + self.length
    }
}

/// Why an index was neither made nor extended, in the order in which it is looked for. The index is as it was then.
#[derive(Clone, Copy, Debug, PartialEq, Eq, Hash)]
#[non_exhaustive]
pub enum Refusal {
    /// 56: parsing at the last entry's place does not give that entry, so the capture is not the one that the index was made of; or the rows
    /// do not suffice there; or more entries are said to be there than the index has room for.
    OtherEntry,
    /// 37: the rows do not suffice at a place: parsing answers 7 there. With room for [`MOST_ROWS`](crate::MOST_ROWS) rows it is not given.
    NoRow,
    /// 55: the index has no room for a frame.
    NoRoom,
}

impl Refusal {
    /// Its number (docs/FORMAT.md).
    #[must_use]
    pub fn number(self) -> u8 {
        match self {
            Refusal::OtherEntry => 56,
            Refusal::NoRow => 37,
            Refusal::NoRoom => 55,
        }
    }

    fn of(number: usize) -> Refusal {
        match number {
            37 => Refusal::NoRow,
            55 => Refusal::NoRoom,
            56 => Refusal::OtherEntry,
            other => panic!("libferrysprig.a gave {other}, which this crate does not know"),
        }
    }

    /// What it means.
    #[must_use]
    pub fn meaning(self) -> &'static str {
        match self {
            Refusal::OtherEntry => "parsing at the last entry's place does not give that entry",
            Refusal::NoRow => "the rows do not suffice for a place of the capture",
            Refusal::NoRoom => "the index has no room for a frame",
        }
    }
}

impl fmt::Display for Refusal {
    fn fmt(&self, f: &mut fmt::Formatter<'_>) -> fmt::Result {
        write!(f, "refusal {}: {}", self.number(), self.meaning())
    }
}

impl std::error::Error for Refusal {}

/// An index, to be kept beside its capture. It takes 40 bytes for a frame.
#[derive(Clone, Debug, Default, PartialEq, Eq, Hash)]
pub struct Index {
    numbers: Vec<usize>,
}

impl Index {
    /// The index of a capture that has no bytes yet.
    #[must_use]
    pub fn new() -> Index {
        Index::default()
    }

    /// Makes the index of a capture. There is room for whatever it holds, so nothing is refused.
    ///
    /// ```
    /// use ferrysprig::index::Index;
    ///
    /// # let stream = include_bytes!("../../judge/frames/header-mix-levels.ac3");
    /// let index = Index::of(stream);
    /// let places: Vec<usize> = index.entries().map(|frame| frame.place).collect();
    /// assert_eq!(places, [0, 768]);
    /// assert_eq!(index.get(1).map(|frame| frame.range()), Some(768..index.end()));
    /// ```
    #[must_use]
    pub fn of(capture: &[u8]) -> Index {
        let mut index = Index::new();
        index
            .extend(capture)
            .expect("no entry is there, and there is room for all");
        index.numbers.shrink_to_fit();
        index
    }

    /// Extends the index by what was appended: `capture` begins with the bytes that the index was made of. Says how many frames came.
    ///
    /// That it does begin so is not looked at, but for the last frame: where parsing there does not give the last entry,
    /// [`Refusal::OtherEntry`] is answered, and the index stays as it is. No other refusal is given, since there is room for any frame.
    ///
    /// ```
    /// use ferrysprig::index::{Index, Refusal};
    ///
    /// # let stream = include_bytes!("../../judge/frames/header-mix-levels.ac3");
    /// let mut index = Index::of(stream);
    /// assert_eq!(index.extend(stream), Ok(0)); // nothing came
    /// assert_eq!(index.extend(&stream[1..]), Err(Refusal::OtherEntry)); // that is another capture
    /// assert_eq!(index.len(), 2);
    /// ```
    ///
    /// # Errors
    ///
    /// [`Refusal::OtherEntry`].
    pub fn extend(&mut self, capture: &[u8]) -> Result<usize, Refusal> {
        let before = self.len();
        let appended = capture.len().saturating_sub(self.end());
        let more = INDEX_ENTRY_NUMBERS * most_frames(appended);
        if before == 0 {
            // Zeros that no frame overwrites take no memory so.
            self.numbers = vec![0; more];
        } else {
            self.numbers.resize(self.numbers.len() + more, 0);
        }
        let told = in_kept_room(|rows| index_into(capture, rows, &mut self.numbers, before));
        let entries = *told.as_ref().unwrap_or(&before);
        self.numbers.truncate(INDEX_ENTRY_NUMBERS * entries);
        told.map(|entries| entries - before)
    }

    /// How many frames it has.
    #[must_use]
    pub fn len(&self) -> usize {
        self.numbers.len() / INDEX_ENTRY_NUMBERS
    }

    /// Whether it has none.
    #[must_use]
    pub fn is_empty(&self) -> bool {
        self.numbers.is_empty()
    }

    /// The frames, in order.
    pub fn entries(&self) -> impl DoubleEndedIterator<Item = Entry> + ExactSizeIterator + '_ {
        let numbers = self.numbers.chunks_exact(INDEX_ENTRY_NUMBERS);
        numbers.map(Entry::of)
    }

    /// A frame, counted from 0.
    #[must_use]
    pub fn get(&self, frame: usize) -> Option<Entry> {
        let numbers = self.numbers.chunks_exact(INDEX_ENTRY_NUMBERS).nth(frame)?;
        Some(Entry::of(numbers))
    }

    /// The last frame.
    #[must_use]
    pub fn last(&self) -> Option<Entry> {
        self.entries().next_back()
    }

    /// The end of the last frame: the first byte that an extension looks at, but for that frame.
    #[must_use]
    pub fn end(&self) -> usize {
        self.last().map_or(0, |entry| entry.range().end)
    }

    /// Its numbers, five to a frame: place, length, acmod, dialnorm, second dialnorm or 0. So an index can be written to a file.
    #[must_use]
    pub fn numbers(&self) -> &[usize] {
        &self.numbers
    }

    /// An index by its numbers; none if they are not such as an index has: whole entries, in the order of their places, none within another.
    /// That they are those of a capture is not looked at: an extension looks at the last.
    ///
    /// ```
    /// use ferrysprig::index::Index;
    ///
    /// # let stream = include_bytes!("../../judge/frames/header-mix-levels.ac3");
    /// let index = Index::of(stream);
    /// assert_eq!(Index::from_numbers(index.numbers().to_vec()), Some(index.clone()));
    /// assert_eq!(Index::from_numbers(index.numbers()[1..].to_vec()), None);
    /// ```
    #[must_use]
    pub fn from_numbers(numbers: Vec<usize>) -> Option<Index> {
        let entries = numbers.chunks(INDEX_ENTRY_NUMBERS);
        let mut end = 0;
        for numbers in entries {
            let whole = numbers.len() == INDEX_ENTRY_NUMBERS;
            let entry = whole.then(|| Entry::read(numbers))??;
            if entry.place < end {
                return None;
            }
            end = entry.range().end;
        }
        Some(Index { numbers })
    }
}

/// Frames that no capture of so many bytes exceeds: a frame has 128 bytes at least.
#[must_use]
pub const fn most_frames(bytes: usize) -> usize {
    bytes / LEAST_BYTES
}

/// Makes or extends an index in room that the caller lends: `rows` as [`parse_into`](crate::parse_into) takes it, and `index`, five numbers
/// to an entry, of which `entries` are there (none: the index is made afresh). Says how many there are then. On a refusal no number of
/// `index` is touched; otherwise those of the new entries alone are.
///
/// With [`MOST_ROWS`](crate::MOST_ROWS) rows and room for [`most_frames`] of the bytes after the last entry, 37 and 55 are not given. The
/// walk goes to its end before 55 is given, so to try again with more room costs as much again.
///
/// ```
/// use ferrysprig::index::{index_into, Refusal};
/// use ferrysprig::{MOST_ROWS, ROW_NUMBERS};
///
/// # let stream = include_bytes!("../../judge/frames/header-mix-levels.ac3");
/// let mut rows = [0; MOST_ROWS * ROW_NUMBERS];
/// let mut index = [0; 10];
/// assert_eq!(index_into(stream, &mut rows, &mut index[..9], 0), Err(Refusal::NoRoom)); // nine numbers are one entry
/// assert_eq!(index, [0; 10]);
/// assert_eq!(index_into(stream, &mut rows, &mut index, 0), Ok(2));
/// assert_eq!(index, [0, 768, 7, 31, 0, 768, 768, 7, 31, 0]);
/// ```
///
/// # Errors
///
/// Any [`Refusal`].
pub fn index_into(
    capture: &[u8],
    rows: &mut [i32],
    index: &mut [usize],
    entries: usize,
) -> Result<usize, Refusal> {
    let answer = raw::index(capture, rows, index, entries);
    match answer[index_answer_at::REFUSAL] {
        0 => Ok(answer[index_answer_at::ENTRIES]),
        number => Err(Refusal::of(number)),
    }
}
