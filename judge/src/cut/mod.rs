//! What docs/FORMAT.md asks of a parse, answered by the published Rust cut at `audio_end`.
//!
//! Added to the Rust: numbers for names, roles and refusals, the room rule (refusal 7), what did not fit (refusal 6), and which band,
//! group or segment a field is.
//! `ac3` and `blocks` here are copies of the published files; to see every change:
//! `diff -u ddpmeta/ac3.rs src/cut/ac3.rs` and the same for `blocks.rs`.

pub mod ac3;
pub mod blocks;

use crate::bits;
use crate::cut::blocks::SLOTS;
use crate::layout::{answer_at, row, ANSWER, NO_PART, ROW};
use crate::names;
use crate::syntax::{Field, Role};

/// A refusal: its number in docs/FORMAT.md, the Rust's own text, kept to compare with the published
/// parser, and what did not fit. Number 0 marks the sites that cannot be reached, as docs/FORMAT.md says.
#[derive(Clone, Debug, PartialEq, Eq)]
pub struct No {
    pub number: u32,
    pub text: String,
    pub unfit: Unfit,
}

/// The field, span or mantissas that would end past the frame, at refusal 6: the number of its name, and its block, -1 in the header.
#[derive(Clone, Copy, Debug, PartialEq, Eq)]
pub struct Unfit {
    pub name: i32,
    pub block: i32,
}

impl Unfit {
    /// What every other answer tells.
    pub const NONE: Unfit = Unfit { name: 0, block: -1 };
}

pub type Result<T> = std::result::Result<T, No>;

/// A frame's own refusals are 1 to this.
pub const REFUSALS: i32 = 23;

pub fn no<T>(number: u32, text: impl Into<String>) -> Result<T> {
    Err(No {
        number,
        text: text.into(),
        unfit: Unfit::NONE,
    })
}

/// An accepted frame's summary, in the order of docs/FORMAT.md.
#[derive(Clone, Debug, PartialEq, Eq)]
pub struct Summary {
    pub rows: usize,
    pub bytes: usize,
    pub audio_end: usize,
    pub bsid: u8,
    pub acmod: u8,
    pub lfeon: bool,
    pub fscod: u8,
    pub cpl_blocks: usize,
    pub block_starts: [usize; 6],
    pub mantissa_starts: [usize; 6],
    pub coordinates_sent: bool,
    /// By block and slot; a group's are counted to the slot of its first member.
    pub mantissa_bits: [[usize; SLOTS]; 6],
}

impl Summary {
    /// Writes the summary into an answer's numbers; yes is 1.
    fn tell(&self, numbers: &mut [i32; ANSWER]) {
        numbers[answer_at::SUMMARY] = self.rows as i32;
        numbers[answer_at::BYTES] = self.bytes as i32;
        numbers[answer_at::AUDIO_END] = self.audio_end as i32;
        numbers[answer_at::BSID] = self.bsid.into();
        numbers[answer_at::ACMOD] = self.acmod.into();
        numbers[answer_at::LFEON] = self.lfeon.into();
        numbers[answer_at::FSCOD] = self.fscod.into();
        numbers[answer_at::CPL_BLOCKS] = self.cpl_blocks as i32;
        for (block, start) in self.block_starts.into_iter().enumerate() {
            numbers[answer_at::BLOCK_STARTS + block] = start as i32;
        }
        for (block, start) in self.mantissa_starts.into_iter().enumerate() {
            numbers[answer_at::MANTISSA_STARTS + block] = start as i32;
        }
        numbers[answer_at::COORDINATES_SENT] = self.coordinates_sent.into();
        for (block, slots) in self.mantissa_bits.into_iter().enumerate() {
            for (slot, bits) in slots.into_iter().enumerate() {
                numbers[answer_at::MANTISSA_BITS + SLOTS * block + slot] = bits as i32;
            }
        }
    }
}

/// What a header leaves to the blocks.
#[derive(Clone, Copy, Debug, PartialEq, Eq)]
pub struct Header {
    pub bytes: usize,
    pub bsid: u8,
    pub acmod: u8,
    pub lfeon: bool,
    pub fscod: usize,
}

/// Where bits come from: bytes that are read, or something that chooses each value as it is
/// asked for (`draw`, `craft`).
pub trait Source {
    fn bytes(&self) -> usize;
    fn field(&mut self, name: &'static str, index: i16, block: i8, at: usize, width: usize) -> u32;
}

pub struct Bytes<'a>(pub &'a [u8]);

impl Source for Bytes<'_> {
    fn bytes(&self) -> usize {
        self.0.len()
    }
    fn field(&mut self, _: &'static str, _: i16, _: i8, at: usize, width: usize) -> u32 {
        bits::get(self.0, at, width)
    }
}

/// The Rust's `Cursor`, writing rows into lent room instead of growing a list.
pub struct Cursor<'a, S> {
    pub source: S,
    pub pos: usize,
    pub limit: usize,
    pub block: i8,
    pub count: usize,
    pub room: &'a mut [i32],
    /// The pointers that were walked over, bin by bin: `mantissas` counts them a second time.
    pub pointers: Vec<u8>,
}

impl<'a, S: Source> Cursor<'a, S> {
    pub fn new(source: S, room: &'a mut [i32]) -> Self {
        Self {
            source,
            pos: 0,
            limit: 0,
            block: -1,
            count: 0,
            room,
            pointers: Vec::new(),
        }
    }

    /// Refuses a field or span of that name, or a piece of one, that would end past the frame; `what` is the Rust's word for it.
    fn check(&self, width: usize, what: &str, name: &str) -> Result<()> {
        if self.pos + width > self.limit {
            let (pos, limit) = (self.pos, self.limit);
            return Err(No {
                number: 6,
                text: format!("{what} ({width} bits) at bit {pos} beyond {limit}"),
                unfit: Unfit {
                    name: names::number(name),
                    block: self.block.into(),
                },
            });
        }
        Ok(())
    }

    /// The room rule, then the row.
    fn record(&mut self, field: &Field, part: i32) -> Result<()> {
        let at = ROW * self.count;
        let Some(room) = self.room.get_mut(at..at + ROW) else {
            return no(7, "no row left");
        };
        room.copy_from_slice(&row(field, part));
        self.count += 1;
        Ok(())
    }

    fn read(
        &mut self,
        name: &'static str,
        role: Role,
        index: i16,
        width: usize,
        part: i32,
    ) -> Result<u32> {
        self.check(width, name, name)?;
        let (block, pos) = (self.block, self.pos);
        let value = self.source.field(name, index, block, pos, width);
        let field = Field {
            name,
            role,
            block,
            index,
            pos,
            width,
            value,
        };
        self.record(&field, part)?;
        self.pos += width;
        Ok(value)
    }

    pub fn get_role(
        &mut self,
        name: &'static str,
        role: Role,
        index: i16,
        width: usize,
    ) -> Result<u32> {
        self.read(name, role, index, width, NO_PART)
    }

    /// One of several bands, groups or segments: the part is which, from 0.
    pub fn get_part(
        &mut self,
        name: &'static str,
        index: usize,
        part: usize,
        width: usize,
    ) -> Result<u32> {
        self.read(name, Role::Plain, index as i16, width, part as i32)
    }

    pub fn get(&mut self, name: &'static str, width: usize) -> Result<u32> {
        self.get_role(name, Role::Plain, -1, width)
    }

    pub fn geti(&mut self, name: &'static str, index: usize, width: usize) -> Result<u32> {
        self.get_role(name, Role::Plain, index as i16, width)
    }

    pub fn flag(&mut self, name: &'static str) -> Result<bool> {
        Ok(self.get(name, 1)? != 0)
    }

    pub fn flagi(&mut self, name: &'static str, index: usize) -> Result<bool> {
        Ok(self.geti(name, index, 1)? != 0)
    }

    pub fn span(&mut self, name: &'static str, role: Role, width: usize) -> Result<()> {
        self.check(width, name, name)?;
        self.record_span(name, role, self.pos, width)?;
        self.pos += width;
        Ok(())
    }

    pub fn close_span(&mut self, name: &'static str, role: Role, start: usize) -> Result<()> {
        self.record_span(name, role, start, self.pos - start)
    }

    fn record_span(
        &mut self,
        name: &'static str,
        role: Role,
        pos: usize,
        width: usize,
    ) -> Result<()> {
        let span = Field {
            name,
            role,
            block: self.block,
            index: -1,
            pos,
            width,
            value: 0,
        };
        self.record(&span, NO_PART)
    }

    /// Pass over one mantissa or group. Its bits are never looked at; it belongs to its block's mantissas, whose row comes after the walk.
    pub fn raw(&mut self, width: usize, what: &str) -> Result<()> {
        self.check(width, what, "mantissas")?;
        self.pos += width;
        Ok(())
    }
}

/// What one call answers beside the room: the rows written, the first bit not yet read
/// (`audio_end` if accepted), and the summary or the refusal.
#[derive(Clone, Debug, PartialEq, Eq)]
pub struct Answer {
    pub rows: usize,
    pub bit: usize,
    pub verdict: Result<Summary>,
}

impl Answer {
    /// The refusal's number; 0 for an accepted frame.
    pub fn number(&self) -> u32 {
        self.verdict.as_ref().map_or_else(|no| no.number, |_| 0)
    }

    /// What did not fit.
    pub fn unfit(&self) -> Unfit {
        self.verdict
            .as_ref()
            .map_or_else(|no| no.unfit, |_| Unfit::NONE)
    }

    /// The answer as numbers; the summary's are all 0 on a refusal.
    pub fn numbers(&self) -> [i32; ANSWER] {
        let mut numbers = [0; ANSWER];
        numbers[answer_at::REFUSAL] = self.number() as i32;
        numbers[answer_at::ROWS] = self.rows as i32;
        numbers[answer_at::BIT] = self.bit as i32;
        if let Ok(summary) = &self.verdict {
            summary.tell(&mut numbers);
        }
        let unfit = self.unfit();
        numbers[answer_at::NAME] = unfit.name;
        numbers[answer_at::BLOCK] = unfit.block;
        numbers
    }
}

/// Parse the frame at byte `place` of `capture` into the lent `room`.
pub fn answer(capture: &[u8], place: usize, room: &mut [i32]) -> Answer {
    walked(capture, place, room).0
}

/// The same, and the pointers of all mantissas that were walked over.
pub fn walked(capture: &[u8], place: usize, room: &mut [i32]) -> (Answer, Vec<u8>) {
    let mut cur = Cursor::new(Bytes(capture.get(place..).unwrap_or(&[])), room);
    let verdict = ac3::parse(&mut cur);
    let answer = Answer {
        rows: cur.count,
        bit: cur.pos,
        verdict,
    };
    (answer, cur.pointers)
}

/// More rows than any frame has, known without a proof: every row takes a bit of at most 3,840 bytes, but for
/// the skip fields and mantissas of six blocks, which may have width 0. (The proved bound is 4,067.)
pub const MANY_ROWS: usize = 3840 * 8 + 12;
