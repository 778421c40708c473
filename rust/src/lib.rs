//! AC-3 frames, field by field, as far as the end of the audio (`audio_end`).
//!
//! The parser behind this crate is proved (docs/PROMISES.md at the top of the repository): it answers for every byte string, and every
//! position that it gives is the one that its definition gives. That definition was written from the contract (docs/FORMAT.md), the
//! published Rust of ddpmeta and common knowledge of ETSI TS 102 366 V1.4.1; the text of the standard was not at hand. This crate only
//! turns the parser's numbers into Rust types, under the names of the original (ddpmeta's `syntax::Field`, `syntax::Role`, `frame::Frame`).
//!
//! ```
//! let frame = [0x0B, 0x77, 0, 0, 0xC0, 0]; // fscod 3: there is no such rate
//! let refusal = ferrysprig::parse(&frame).unwrap_err();
//! assert_eq!((refusal.number, refusal.bit), (3, 40));
//! assert_eq!(refusal.rows.len(), 4);
//! assert_eq!(refusal.rows[2].name, "fscod");
//! assert_eq!(refusal.unfit, None); // at refusal 6: what would end past the frame, by name and block
//! assert_eq!(refusal.to_string(), "refusal 3 at bit 40: fscod is 3, or frmsizecod is 38 or more");
//! ```
//!
//! # An edit breaks the checksums
//!
//! But for the sync word, crc1 guards the first five eighths of a frame and crc2 all of it. Whoever changes a field makes crc2 wrong, and
//! crc1 too where the field stands that early, and a decoder may then drop the frame. [`level::correct_level`] mends them with the level
//! that it writes. Nothing else here does, or checks them: compute them anew after an edit, as the original's `fix_crcs` does.
//!
//! # Many frames
//!
//! [`parse`] gives each frame a list of its own. A [`Parser`] keeps its room from frame to frame and gives the fields from there, without
//! allocation:
//!
//! ```
//! # let stream = include_bytes!("../../judge/frames/rate-192-2_0-tones.ac3");
//! let mut parser = ferrysprig::Parser::new();
//! let (mut place, mut gains) = (0, 0);
//! while place < stream.len() {
//!     let frame = parser.parse_at(stream, place)?;
//!     gains += frame.fields.filter(|f| f.role.is_drc()).count();
//!     place += frame.summary.bytes;
//! }
//! # assert_eq!((place, gains), (stream.len(), 14));
//! # Ok::<(), ferrysprig::Refusal>(())
//! ```
//!
//! # Where the bits went
//!
//! [`Summary::mantissa_bits`] tells, block by block, how many bits the mantissas of each channel take, of coupling and of LFE:
//!
//! ```
//! # let stream = include_bytes!("../../judge/frames/coupling-03-3_2_lfe-tones.ac3");
//! use ferrysprig::slot;
//!
//! let summary = ferrysprig::parse(stream)?.summary;
//! for block in summary.mantissa_bits {
//!     println!("channels {:?}, coupling {}, LFE {}", &block[..5], block[slot::COUPLING], block[slot::LFE]);
//! }
//! # assert_eq!(summary.mantissa_bits[0], [18, 688, 13, 13, 18, 472, 13]);
//! # Ok::<(), ferrysprig::Refusal>(())
//! ```
//!
//! # Headers alone
//!
//! Monitoring needs only what stands before the blocks: levels, modes, flags. [`header`] and [`Parser::header_at`] read that far and no
//! further, for a small part of the cost (docs/SPEED.md); [`Parser::blocks_at`] goes on, and sees that the header is still the same.
//!
//! ```
//! use ferrysprig::{Parser, Role};
//!
//! # let stream = include_bytes!("../../judge/frames/header-mix-levels.ac3");
//! let mut parser = Parser::new();
//! let mut place = 0;
//! while place < stream.len() {
//!     let header = parser.header_at(stream, place)?;
//!     assert_eq!(header.value(Role::Dialnorm(0)), Some(31));
//!     place += header.summary.bytes;
//! }
//! # assert_eq!(place, stream.len());
//! # Ok::<(), ferrysprig::Refusal>(())
//! ```
//!
//! # Edits
//!
//! [`Field::editable`] says whether a field's value may be changed without changing any other field, [`edit::set`] writes another value.
//!
//! # Levels
//!
//! [`level`] writes another dialogue level into a frame, mends both checksums, and tells what changed.
//!
//! # Bursts
//!
//! [`burst`] writes a frame as an IEC 61937 data burst, and reads the frame of one.
//!
//! # Salvage
//!
//! [`salvage`] goes through a damaged capture: it gives the frames that are left, one after the other, and a list of frames and gaps.
//!
//! # Packed listings
//!
//! [`listing`] turns the text that the listing program prints into the packed form that a log collector takes, and back.
//!
//! # An index beside the capture
//!
//! [`index`](mod@index) keeps a list of a growing capture's frames, with their levels, and extends it by what was appended.
//!
//! # The contribution profile
//!
//! [`profile`] says whether a frame is one that a carrier takes, and if not, which rule is broken by which field.
//!
//! # AHT sections
//!
//! [`aht`] tells where a section of E-AC-3's adaptive hybrid transform ends, and how many tags it has. Mantissa values steer that length.
//!
//! # What comes after the audio
//!
//! The original's `parse` ends with `read_tail`: auxiliary data, crcrsv and crc2. That is the caller's. It goes on at bit
//! [`Summary::audio_end`], ends at [`Frame::total_bits`], and can append to [`Frame::fields`], which lie end to end from bit 0 to
//! `audio_end`. To keep the original's `Cursor` and `read_tail`, let its syntax.rs say, in place of its own two types,
//!
//! ```text
//! pub use ferrysprig::{Field, Role};
//! ```
//!
//! and let `Cursor` make its elements by [`Field::new`], which takes their parts in the same order: `Field::new(name, role, self.block,
//! index, self.pos, width, value)`. Its error needs
//!
//! ```text
//! impl From<ferrysprig::Refusal> for Error {
//!     fn from(refusal: ferrysprig::Refusal) -> Error {
//!         Error::Invalid(refusal.to_string())
//!     }
//! }
//! ```
//!
//! Then the whole list of a frame is
//!
//! ```text
//! pub fn fields(data: &[u8]) -> Result<Vec<Field>> {
//!     let frame = ferrysprig::parse(data)?;
//!     let total = frame.total_bits();
//!     let mut cur = Cursor {
//!         data,
//!         pos: frame.summary.audio_end,
//!         limit: total,
//!         fields: frame.fields,
//!         block: -1,
//!     };
//!     read_tail(&mut cur, total, Codec::Ac3)?;
//!     Ok(cur.fields)
//! }
//! ```
//!
//! `read_tail` can still refuse: an accepted frame may leave it fewer than the 18 bits it needs. (tests/tail.rs compiles these very lines
//! with the original's files, and finds the original's own list for every frame of judge/frames.)
//!
//! # Building
//!
//! The crate links libferrysprig.a, for x86-64 Linux, from target/staticlib of the repository, where `tools/archive ferrysprig` writes
//! it, or from the folder that the environment variable `FERRYSPRIG_LIB` names.
//!
//! # Panics
//!
//! No input makes a function of this crate panic. They do where the linked archive is not Ferrysprig's and gives numbers without meaning.

#![deny(missing_docs, missing_debug_implementations)]
#![deny(unsafe_code)] // but for raw

pub mod aht;
pub mod burst;
pub mod edit;
mod field;
mod frame;
mod header;
pub mod index;
mod layout;
pub mod level;
pub mod listing;
mod names;
mod parser;
pub mod profile;
#[allow(unsafe_code)]
mod raw;
pub mod salvage;

pub use field::{Field, Fields};
pub use frame::{Frame, FrameRef, Refusal, Summary, Unfit};
pub use header::{Header, HeaderRef, HeaderSummary};
pub use layout::{slot, LEAST_BYTES, MOST_BYTES, MOST_HEADER_ROWS, MOST_ROWS, ROW_NUMBERS, SLOTS};
pub use names::{Role, NAMES, REFUSALS};
pub use parser::{
    blocks_into, header, header_at, header_into, parse, parse_at, parse_into, Parser,
};

/// True when bits `[a, a+n)` of `x` equal bits `[b, b+n)` of `y`, most significant bit of a byte first: what an editor asks of the spans
/// that it must not change. Where either range ends past its bytes the answer is false (the original panics there); a range of no bits ends
/// where it starts.
///
/// ```
/// use ferrysprig::{level::correct_level, range_eq};
///
/// # let stream = include_bytes!("../../judge/frames/header-mix-levels.ac3");
/// let mut mended = stream.to_vec();
/// correct_level(&mut mended, 0, 1, 24)?;
/// let frame = ferrysprig::parse(stream).unwrap();
/// let (audio, end) = (frame.summary.block_starts[0], frame.summary.audio_end);
/// assert!(range_eq(stream, audio, &mended, audio, end - audio)); // the blocks are as they were
/// assert!(!range_eq(stream, 0, &mended, 0, audio)); // the header is not
/// assert!(!range_eq(stream, 0, &mended, 8 * mended.len(), 1)); // nor are there bits past the end
/// # Ok::<(), ferrysprig::level::Refusal>(())
/// ```
#[must_use]
pub fn range_eq(x: &[u8], a: usize, y: &[u8], b: usize, n: usize) -> bool {
    raw::range_eq(x, a, y, b, n)
}
