//! A parsed syncframe is a contiguous list of syntax elements. Every bit of the frame belongs
//! to exactly one element, from the sync word to crc2, so a frame can be rebuilt element by
//! element and two parses can be compared element by element.

use crate::bits;
use crate::error::{Error, Result};

pub use ferrysprig::{Field, Role};

/// Sequential reader that records every element it reads.
pub struct Cursor<'a> {
    pub data: &'a [u8],
    pub pos: usize,
    pub limit: usize,
    pub fields: Vec<Field>,
    pub block: i8,
}

impl<'a> Cursor<'a> {
    pub fn new(data: &'a [u8], limit_bits: usize) -> Self {
        Self {
            data,
            pos: 0,
            limit: limit_bits,
            fields: Vec::with_capacity(1024),
            block: -1,
        }
    }

    fn check(&self, width: usize, name: &str) -> Result<()> {
        if self.pos + width > self.limit {
            return Err(Error::Truncated(format!(
                "{name} ({width} bits) at bit {} beyond {}",
                self.pos, self.limit
            )));
        }
        Ok(())
    }

    pub fn get_role(
        &mut self,
        name: &'static str,
        role: Role,
        index: i16,
        width: usize,
    ) -> Result<u32> {
        self.check(width, name)?;
        let value = bits::get(self.data, self.pos, width);
        self.fields.push(Field::new(
            name,
            role,
            self.block,
            index,
            self.pos,
            width,
            value,
        ));
        self.pos += width;
        Ok(value)
    }

    pub fn get(&mut self, name: &'static str, width: usize) -> Result<u32> {
        self.get_role(name, Role::Plain, -1, width)
    }

    pub fn geti(&mut self, name: &'static str, index: usize, width: usize) -> Result<u32> {
        self.get_role(name, Role::Plain, index as i16, width)
    }

    pub fn flag(&mut self, name: &'static str) -> Result<bool> {
        Ok(self.get(name, 1)? != 0)
    }

    pub fn flagi(&mut self, name: &'static str, index: usize) -> Result<bool> {
        Ok(self.geti(name, index, 1)? != 0)
    }

    /// Record `width` bits as one span element.
    pub fn span(&mut self, name: &'static str, role: Role, width: usize) -> Result<()> {
        self.check(width, name)?;
        self.fields.push(Field::new(
            name,
            role,
            self.block,
            -1,
            self.pos,
            width,
            0,
        ));
        self.pos += width;
        Ok(())
    }

    /// Record a span that was walked with `peek`/`advance` from `start` to the cursor.
    pub fn close_span(&mut self, name: &'static str, role: Role, start: usize) {
        self.fields.push(Field::new(
            name,
            role,
            self.block,
            -1,
            start,
            self.pos - start,
            0,
        ));
    }

    /// Read bits without recording an element (inside a span).
    pub fn raw(&mut self, width: usize, what: &str) -> Result<u32> {
        self.check(width, what)?;
        let v = bits::get(self.data, self.pos, width);
        self.pos += width;
        Ok(v)
    }
}

/// Verify that elements tile `[0, total)` without gaps or overlaps.
pub fn check_contiguous(fields: &[Field], total: usize) -> Result<()> {
    let mut at = 0;
    for f in fields {
        if f.pos != at {
            return Err(Error::Invalid(format!(
                "element {} at bit {} does not follow bit {at}",
                f.name, f.pos
            )));
        }
        at = f.end();
    }
    if at != total {
        return Err(Error::Invalid(format!(
            "elements end at bit {at}, frame has {total}"
        )));
    }
    Ok(())
}
