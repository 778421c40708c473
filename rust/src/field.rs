//! Fields, by themselves and in a lent room.
//!
//! What turns a row into a field is always inlined, here and in names.rs: a dense frame has thousands, and their loop is most of what this
//! crate costs.

use crate::layout::{row_at, Row, NO_PART, ROW_NUMBERS};
use crate::names::{known, name_of, number_of, role_of};
use crate::{raw, Role};
use std::iter::FusedIterator;
use std::slice::ChunksExact;

/// A syntax element of the frame.
#[derive(Clone, Debug, PartialEq, Eq, Hash)]
#[non_exhaustive]
pub struct Field {
    /// One of [`NAMES`](crate::NAMES).
    pub name: &'static str,
    /// What it means to an editor.
    pub role: Role,
    /// Audio block, or -1 outside blocks.
    pub block: i8,
    /// Channel or array index where the syntax has one, else -1.
    pub index: i16,
    /// Bit position from the start of the frame (the first bit of the sync word).
    pub pos: usize,
    /// In bits; 0 for a span without content.
    pub width: usize,
    /// The bits as a number; 0 for spans.
    pub value: u32,
    /// Which of several of its name, block and index it is, from 0: the coupling band of `cplcoexp` and `cplcomant`, the group of `cplexps`,
    /// `exps[ch]` and `lfeexps`, the segment of a delta offset, length or ba (coupling's too). Other elements have none.
    pub part: Option<u8>,
}

impl Field {
    /// An element that the caller reads itself, such as those of the tail, from the values above in their order. It has no part.
    ///
    /// ```
    /// use ferrysprig::{Field, Role};
    ///
    /// let crc2 = Field::new("crc2", Role::Crc2, -1, -1, 3056, 16, 0x1234);
    /// assert_eq!((crc2.end(), crc2.part), (3072, None));
    /// ```
    #[must_use]
    pub fn new(
        name: &'static str,
        role: Role,
        block: i8,
        index: i16,
        pos: usize,
        width: usize,
        value: u32,
    ) -> Field {
        Field {
            name,
            role,
            block,
            index,
            pos,
            width,
            value,
            part: None,
        }
    }

    /// The first bit after it.
    #[must_use]
    pub fn end(&self) -> usize {
        self.pos + self.width
    }

    /// Whether its value never steers the rest, so that [`edit::set`](crate::edit::set) may write another one and every other field stays
    /// as it is. It is so for 39 of the [`NAMES`](crate::NAMES) and for nothing of the tail. (The bits of spans are free as well, but they
    /// are no value.)
    ///
    /// ```
    /// let frame = ferrysprig::parse(include_bytes!("../../judge/frames/header-production.ac3"))?;
    /// assert!(frame.named("dialnorm").unwrap().editable());
    /// assert!(!frame.named("compre").unwrap().editable()); // it says whether compr follows
    /// # Ok::<(), ferrysprig::Refusal>(())
    /// ```
    #[must_use]
    pub fn editable(&self) -> bool {
        number_of(self.name).is_some_and(raw::editable)
    }
}

/// The fields of the rows in a lent room, each made when it is asked for: nothing is allocated.
///
/// ```
/// # let stream = include_bytes!("../../judge/frames/header-production.ac3");
/// let mut parser = ferrysprig::Parser::new();
/// let mut fields = parser.parse(stream)?.fields;
/// assert_eq!(fields.next().map(|field| field.name), Some("syncword"));
/// assert_eq!(fields.next_back().map(|field| field.name), Some("mantissas")); // those of the last block
/// # Ok::<(), ferrysprig::Refusal>(())
/// ```
#[derive(Clone, Debug)]
pub struct Fields<'a> {
    rows: ChunksExact<'a, i32>,
}

/// What the tail can add to a list: auxbits, auxdatal, auxdatae, crcrsv, crc2.
const TAIL_FIELDS: usize = 5;

impl<'a> Fields<'a> {
    pub(crate) fn new(written: &'a [i32]) -> Fields<'a> {
        Fields {
            rows: written.chunks_exact(ROW_NUMBERS),
        }
    }

    /// A list, with room for the tail's.
    pub(crate) fn list(self) -> Vec<Field> {
        let mut list = Vec::with_capacity(self.len() + TAIL_FIELDS);
        for row in self.rows {
            list.push(of(row));
        }
        list
    }

    /// Those of a role; no field is made for the others.
    #[inline]
    pub(crate) fn of_role(self, wanted: Role) -> impl Iterator<Item = Field> + 'a {
        self.rows
            .filter(move |row| role(whole(row)) == wanted)
            .map(of)
    }
}

#[inline(always)]
fn whole(row: &[i32]) -> &Row {
    row.try_into().expect("chunks have that length")
}

/// A row's role.
#[inline(always)]
fn role(row: &Row) -> Role {
    role_of(row[row_at::ROLE], row[row_at::PROGRAMME])
}

/// A row's part.
#[inline(always)]
fn part(row: &Row) -> Option<u8> {
    match row[row_at::PART] {
        NO_PART => None,
        part => Some(known(part)),
    }
}

/// A row as a field.
#[inline(always)]
fn of(row: &[i32]) -> Field {
    let row = whole(row);
    Field {
        name: name_of(row[row_at::NAME]),
        role: role(row),
        block: known(row[row_at::BLOCK]),
        index: known(row[row_at::INDEX]),
        pos: known(row[row_at::POSITION]),
        width: known(row[row_at::WIDTH]),
        value: known(row[row_at::VALUE]),
        part: part(row),
    }
}

impl Iterator for Fields<'_> {
    type Item = Field;

    #[inline]
    fn next(&mut self) -> Option<Field> {
        self.rows.next().map(of)
    }

    #[inline]
    fn nth(&mut self, n: usize) -> Option<Field> {
        self.rows.nth(n).map(of)
    }

    #[inline]
    fn size_hint(&self) -> (usize, Option<usize>) {
        self.rows.size_hint()
    }
}

impl DoubleEndedIterator for Fields<'_> {
    #[inline]
    fn next_back(&mut self) -> Option<Field> {
        self.rows.next_back().map(of)
    }
}

impl ExactSizeIterator for Fields<'_> {}

impl FusedIterator for Fields<'_> {}
