//! The published `Cursor` again, with the same fields and methods, which also notes each row and
//! each move where a test can see them, and lends a limited number of rows.
//!
//! `close_span` cannot refuse in the Rust. When no row is left for it, that is noted as the end of
//! what was seen.

pub use judge::syntax::{Field, Role};

use crate::bits;
use crate::error::{Error, Result};
use std::cell::RefCell;

/// What was seen of a parse up to its end.
#[derive(Clone, Debug, Default)]
pub struct Seen {
    pub fields: Vec<Field>,
    pub pos: usize,
    /// Rows lent, and whether one was asked for that was not there.
    pub rows: usize,
    pub full: bool,
    /// The Rust's word for what did not fit, and the block.
    pub unfit: Option<(String, i8)>,
}

thread_local! {
    pub static SEEN: RefCell<Seen> = RefCell::default();
}

fn seen<T>(note: impl FnOnce(&mut Seen) -> T) -> T {
    SEEN.with_borrow_mut(note)
}

pub struct Cursor<'a> {
    pub data: &'a [u8],
    pub pos: usize,
    pub limit: usize,
    pub fields: Vec<Field>,
    pub block: i8,
}

impl<'a> Cursor<'a> {
    pub fn new(data: &'a [u8], limit_bits: usize) -> Self {
        Self {
            data,
            pos: 0,
            limit: limit_bits,
            fields: Vec::new(),
            block: -1,
        }
    }

    fn check(&self, width: usize, name: &str) -> Result<()> {
        if self.pos + width > self.limit {
            seen(|seen| seen.unfit = Some((name.into(), self.block)));
            return Err(Error::Truncated(format!(
                "{name} ({width} bits) at bit {} beyond {}",
                self.pos, self.limit
            )));
        }
        Ok(())
    }

    fn push(&mut self, field: Field, advance: usize) -> Result<()> {
        let full = seen(|seen| {
            if !seen.full && seen.fields.len() == seen.rows {
                (seen.full, seen.pos) = (true, self.pos);
            }
            if !seen.full {
                seen.fields.push(field.clone());
                seen.pos = self.pos + advance;
            }
            seen.full
        });
        self.fields.push(field);
        self.pos += advance;
        if full {
            return Err(Error::Protected("no row left".into()));
        }
        Ok(())
    }

    pub fn get_role(
        &mut self,
        name: &'static str,
        role: Role,
        index: i16,
        width: usize,
    ) -> Result<u32> {
        self.check(width, name)?;
        let value = bits::get(self.data, self.pos, width);
        let field = Field {
            name,
            role,
            block: self.block,
            index,
            pos: self.pos,
            width,
            value,
        };
        self.push(field, width)?;
        Ok(value)
    }

    pub fn get(&mut self, name: &'static str, width: usize) -> Result<u32> {
        self.get_role(name, Role::Plain, -1, width)
    }

    pub fn geti(&mut self, name: &'static str, index: usize, width: usize) -> Result<u32> {
        self.get_role(name, Role::Plain, index as i16, width)
    }

    pub fn flag(&mut self, name: &'static str) -> Result<bool> {
        Ok(self.get(name, 1)? != 0)
    }

    pub fn flagi(&mut self, name: &'static str, index: usize) -> Result<bool> {
        Ok(self.geti(name, index, 1)? != 0)
    }

    fn span_field(&self, name: &'static str, role: Role, pos: usize, width: usize) -> Field {
        Field {
            name,
            role,
            block: self.block,
            index: -1,
            pos,
            width,
            value: 0,
        }
    }

    pub fn span(&mut self, name: &'static str, role: Role, width: usize) -> Result<()> {
        self.check(width, name)?;
        let field = self.span_field(name, role, self.pos, width);
        self.push(field, width)
    }

    pub fn close_span(&mut self, name: &'static str, role: Role, start: usize) {
        let field = self.span_field(name, role, start, self.pos - start);
        let _ = self.push(field, 0);
    }

    pub fn raw(&mut self, width: usize, what: &str) -> Result<u32> {
        self.check(width, what)?;
        let value = bits::get(self.data, self.pos, width);
        self.pos += width;
        seen(|seen| {
            if !seen.full {
                seen.pos = self.pos;
            }
        });
        Ok(value)
    }
}
