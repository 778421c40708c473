//! Parsing, into room that is kept or lent.

use crate::frame::{summary, unfit};
use crate::layout::{answer_at, header_answer_at, Answer, MOST_ROWS, ROW_NUMBERS};
use crate::names::known;
use crate::{raw, Fields, Frame, FrameRef, Header, HeaderRef, HeaderSummary, Refusal};
use std::cell::RefCell;
use std::fmt;

/// Parses the frame at the start of `data`; bytes after the frame are not looked at. (A thread that calls this, [`parse_at`], [`header`],
/// [`header_at`], [`burst::write`](crate::burst::write), [`burst::read`](crate::burst::read), [`profile::check`](crate::profile::check) what
/// [`salvage`](crate::salvage) has without lent rows, or what [`Index`](crate::index::Index) has, keeps a [`Parser`] for it.)
///
/// ```
/// use ferrysprig::Role;
///
/// let stream = include_bytes!("../../judge/frames/header-production.ac3");
/// let frame = ferrysprig::parse(stream)?;
/// assert_eq!((frame.summary.bytes, frame.summary.acmod), (384, 2));
/// assert_eq!(frame.value(Role::Dialnorm(0), -1), Some(20));
///
/// let refusal = ferrysprig::parse(&stream[..383]).unwrap_err();
/// assert_eq!(refusal.to_string(), "refusal 4 at bit 40: the input is shorter than the frame");
/// # Ok::<(), ferrysprig::Refusal>(())
/// ```
///
/// # Errors
///
/// Refusals 1 to 23 but for 7: there is room for every frame's rows.
pub fn parse(data: &[u8]) -> Result<Frame, Refusal> {
    parse_at(data, 0)
}

/// Parses the frame at byte `place` of `capture`; positions are counted from there. A place past the end is refusal 1.
///
/// ```
/// let stream = include_bytes!("../../judge/frames/header-production.ac3");
/// let first = ferrysprig::parse(stream)?;
/// let second = ferrysprig::parse_at(stream, first.summary.bytes)?;
/// assert_eq!(second.fields[0].pos, 0); // the sync word, at bit 0 of its frame
/// assert_eq!(ferrysprig::parse_at(stream, stream.len()).unwrap_err().number, 1);
/// # Ok::<(), ferrysprig::Refusal>(())
/// ```
///
/// # Errors
///
/// Those of [`parse()`].
pub fn parse_at(capture: &[u8], place: usize) -> Result<Frame, Refusal> {
    in_kept_room(|room| parse_into(capture, place, room).map(|frame| frame.to_frame()))
}

/// Reads the header of the frame at the start of `data`, through addbsi, and nothing after it: what monitoring needs, at a fraction of the
/// cost of [`parse()`]. The frame must be whole (refusal 4), but its blocks are not looked at.
///
/// ```
/// let stream = include_bytes!("../../judge/frames/header-production.ac3");
/// let header = ferrysprig::header(stream)?;
/// assert_eq!((header.summary.bytes, header.summary.acmod), (384, 2));
/// assert_eq!(header.named("dialnorm").map(|f| f.value), Some(20));
///
/// // What the whole frame says, as far as the header goes.
/// let frame = ferrysprig::parse(stream)?;
/// assert_eq!(header.fields, frame.fields[..header.summary.rows]);
/// assert_eq!(header.summary.end, frame.summary.block_starts[0]);
/// # Ok::<(), ferrysprig::Refusal>(())
/// ```
///
/// # Errors
///
/// Refusals 1 to 5: every header fits its frame, and there is room for its rows.
pub fn header(data: &[u8]) -> Result<Header, Refusal> {
    header_at(data, 0)
}

/// Reads the header of the frame at byte `place` of `capture`; positions are counted from there. A place past the end is refusal 1.
///
/// ```
/// let stream = include_bytes!("../../judge/frames/header-mix-levels.ac3");
/// let header = ferrysprig::header_at(stream, 768)?;
/// assert_eq!(header.named("dialnorm").map(|field| field.value), Some(31));
/// assert_eq!(ferrysprig::header_at(stream, 769).unwrap_err().number, 2); // no sync word there
/// # Ok::<(), ferrysprig::Refusal>(())
/// ```
///
/// # Errors
///
/// Those of [`header()`].
pub fn header_at(capture: &[u8], place: usize) -> Result<Header, Refusal> {
    in_kept_room(|room| header_into(capture, place, room).map(|header| header.to_header()))
}

/// Does some work in room for any frame, which the thread keeps.
pub(crate) fn in_kept_room<T>(mut work: impl FnMut(&mut [i32]) -> T) -> T {
    KEPT.try_with(|parser| work(&mut parser.borrow_mut().room))
        // The thread is ending, and its parser is gone.
        .unwrap_or_else(|_| work(&mut Parser::new().room))
}

thread_local! {
    /// The parser of the functions that are lent no room: to make room for one frame can take longer than to parse it.
    static KEPT: RefCell<Parser> = RefCell::new(Parser::new());
}

/// Parses as [`parse_at`] does, in room that the caller lends: [`ROW_NUMBERS`] numbers to a row, written in front (docs/FORMAT.md); the
/// rest is not touched. With too little room the answer is refusal 7; room for [`MOST_ROWS`] rows is always enough.
///
/// ```
/// use ferrysprig::{parse_into, MOST_ROWS, ROW_NUMBERS};
///
/// let stream = include_bytes!("../../judge/frames/header-production.ac3");
/// let mut room = vec![0; MOST_ROWS * ROW_NUMBERS];
/// let frame = parse_into(stream, 384, &mut room)?;
/// assert_eq!(frame.to_frame(), ferrysprig::parse_at(stream, 384)?);
///
/// let refusal = parse_into(stream, 384, &mut room[..ROW_NUMBERS]).unwrap_err(); // room for one row
/// assert_eq!((refusal.number, refusal.rows.len()), (7, 1));
/// # Ok::<(), ferrysprig::Refusal>(())
/// ```
///
/// # Errors
///
/// Refusals 1 to 23.
pub fn parse_into<'a>(
    capture: &[u8],
    place: usize,
    room: &'a mut [i32],
) -> Result<FrameRef<'a>, Refusal> {
    let (answer, written) = raw::parse(capture, place, room);
    frame(&answer, Fields::new(written))
}

/// An accepted frame or a refusal, by the answer.
fn frame<'a>(answer: &Answer, fields: Fields<'a>) -> Result<FrameRef<'a>, Refusal> {
    if answer[answer_at::REFUSAL] == 0 {
        Ok(FrameRef {
            fields,
            summary: summary(answer),
        })
    } else {
        Err(Refusal {
            number: known(answer[answer_at::REFUSAL]),
            rows: fields.collect(),
            bit: known(answer[answer_at::BIT]),
            unfit: unfit(answer[answer_at::NAME], answer[answer_at::BLOCK]),
        })
    }
}

/// Reads a header as [`header_at`] does, in room that the caller lends, as [`parse_into`] takes it. Room for
/// [`MOST_HEADER_ROWS`](crate::MOST_HEADER_ROWS) rows is always enough.
///
/// ```
/// use ferrysprig::{header_into, MOST_HEADER_ROWS, ROW_NUMBERS};
///
/// let stream = include_bytes!("../../judge/frames/header-mix-levels.ac3");
/// let mut room = [0; MOST_HEADER_ROWS * ROW_NUMBERS];
/// let header = header_into(stream, 768, &mut room)?;
/// assert_eq!(header.named("mixlevel").map(|f| f.value), Some(25));
/// # Ok::<(), ferrysprig::Refusal>(())
/// ```
///
/// # Errors
///
/// Refusals 1 to 5 and 7.
pub fn header_into<'a>(
    capture: &[u8],
    place: usize,
    room: &'a mut [i32],
) -> Result<HeaderRef<'a>, Refusal> {
    let (answer, written) = raw::header(capture, place, room);
    let fields = Fields::new(written);
    if answer[header_answer_at::REFUSAL] == 0 {
        Ok(HeaderRef {
            fields,
            summary: HeaderSummary::of(&answer),
        })
    } else {
        Err(Refusal {
            number: known(answer[header_answer_at::REFUSAL]),
            rows: fields.collect(),
            bit: known(answer[header_answer_at::BIT]),
            unfit: unfit(
                answer[header_answer_at::NAME],
                answer[header_answer_at::BLOCK],
            ),
        })
    }
}

/// Parses the frame whose header was read before: gives what [`parse_into`] gives if `header` is what [`header_into`] says of the same
/// capture, place and room. It is not trusted: the header is read again, and where anything of the summary differs the answer is refusal
/// 24 and the room is not touched. (A summary of another frame or room that is equal is taken: the header's rows are written afresh.)
///
/// ```
/// use ferrysprig::{blocks_into, header, MOST_ROWS, ROW_NUMBERS};
///
/// let stream = include_bytes!("../../judge/frames/header-production.ac3");
/// let mut room = vec![0; MOST_ROWS * ROW_NUMBERS];
/// let mut told = header(stream)?.summary;
/// let frame = blocks_into(stream, 0, &mut room, &told)?.to_frame();
/// assert_eq!(frame, ferrysprig::parse(stream)?);
///
/// told.acmod = 7;
/// let refusal = blocks_into(stream, 0, &mut room, &told).unwrap_err();
/// assert_eq!(refusal.to_string(), "refusal 24 at bit 0: the header answer does not fit the input");
/// # Ok::<(), ferrysprig::Refusal>(())
/// ```
///
/// # Errors
///
/// Refusal 24; or where the header is the same, refusals 6 to 23.
pub fn blocks_into<'a>(
    capture: &[u8],
    place: usize,
    room: &'a mut [i32],
    header: &HeaderSummary,
) -> Result<FrameRef<'a>, Refusal> {
    let (answer, written) = raw::blocks(capture, place, room, &header.answer());
    frame(&answer, Fields::new(written))
}

/// Room for the rows of any frame (some 146,000 bytes), kept from one frame to the next. Only a refusal allocates: it owns its rows.
///
/// ```
/// use ferrysprig::{Parser, Role};
///
/// # let stream = include_bytes!("../../judge/frames/header-mix-levels.ac3");
/// let mut parser = Parser::new();
/// let level = parser.header(stream)?.value(Role::Dialnorm(0)); // the header alone
/// assert_eq!(level, Some(31));
/// let blocks = parser.parse(stream)?.summary.block_starts; // all of the frame
/// assert_eq!(blocks[0], 76);
/// # Ok::<(), ferrysprig::Refusal>(())
/// ```
#[derive(Clone)]
pub struct Parser {
    room: Box<[i32]>,
}

impl Parser {
    /// A parser with its room.
    #[must_use]
    pub fn new() -> Parser {
        Parser {
            room: vec![0; MOST_ROWS * ROW_NUMBERS].into(),
        }
    }

    /// Parses the frame at the start of `data`; bytes after the frame are not looked at.
    ///
    /// # Errors
    ///
    /// Those of [`parse()`].
    pub fn parse(&mut self, data: &[u8]) -> Result<FrameRef<'_>, Refusal> {
        self.parse_at(data, 0)
    }

    /// Parses the frame at byte `place` of `capture`; positions are counted from there. A place past the end is refusal 1.
    ///
    /// ```
    /// # let stream = include_bytes!("../../judge/frames/rate-192-2_0-tones.ac3");
    /// let mut parser = ferrysprig::Parser::new();
    /// let frame = parser.parse_at(stream, 768)?;
    /// assert!(frame.fields.len() > 100);
    /// # Ok::<(), ferrysprig::Refusal>(())
    /// ```
    ///
    /// # Errors
    ///
    /// Those of [`parse()`].
    pub fn parse_at(&mut self, capture: &[u8], place: usize) -> Result<FrameRef<'_>, Refusal> {
        parse_into(capture, place, &mut self.room)
    }

    /// Reads the header of the frame at the start of `data`, as [`header()`] does.
    ///
    /// # Errors
    ///
    /// Those of [`header()`].
    pub fn header(&mut self, data: &[u8]) -> Result<HeaderRef<'_>, Refusal> {
        self.header_at(data, 0)
    }

    /// Reads the header of the frame at byte `place` of `capture`, as [`header_at`] does.
    ///
    /// ```
    /// # let stream = include_bytes!("../../judge/frames/header-mix-levels.ac3");
    /// let mut parser = ferrysprig::Parser::new();
    /// let header = parser.header_at(stream, 768)?;
    /// assert_eq!((header.summary.end, header.fields.len()), (76, header.summary.rows));
    /// # Ok::<(), ferrysprig::Refusal>(())
    /// ```
    ///
    /// # Errors
    ///
    /// Those of [`header()`].
    pub fn header_at(&mut self, capture: &[u8], place: usize) -> Result<HeaderRef<'_>, Refusal> {
        header_into(capture, place, &mut self.room)
    }

    /// Parses the frame at byte `place` of `capture` if `header` is still what its header says, as [`blocks_into`] does; else refusal 24.
    ///
    /// ```
    /// # let stream = include_bytes!("../../judge/frames/rate-192-2_0-tones.ac3");
    /// let mut parser = ferrysprig::Parser::new();
    /// let header = parser.header_at(stream, 768)?.summary;
    /// let frame = parser.blocks_at(stream, 768, &header)?;
    /// assert_eq!(frame.to_frame(), ferrysprig::parse_at(stream, 768)?);
    /// # Ok::<(), ferrysprig::Refusal>(())
    /// ```
    ///
    /// # Errors
    ///
    /// Refusal 24; or where the header is the same, refusals 6 to 23 but for 7.
    pub fn blocks_at(
        &mut self,
        capture: &[u8],
        place: usize,
        header: &HeaderSummary,
    ) -> Result<FrameRef<'_>, Refusal> {
        blocks_into(capture, place, &mut self.room, header)
    }
}

impl Default for Parser {
    fn default() -> Parser {
        Parser::new()
    }
}

impl fmt::Debug for Parser {
    fn fmt(&self, f: &mut fmt::Formatter<'_>) -> fmt::Result {
        f.debug_struct("Parser").finish_non_exhaustive()
    }
}
