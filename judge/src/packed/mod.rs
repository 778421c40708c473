//! Packed listings, written from the words of their description and not from the port: a listing read from either form by descent, byte by
//! byte, and written in the other.
//!
//! An answer is two numbers: refusal (0: none) and bytes written. The first refusal that is met in reading is told, and refusal 45, too
//! little room, only where there is none; a refusal writes nothing.

pub mod again;
pub mod cases;

use crate::layout::{PackAnswer, ROW};

pub const MALFORMED: usize = 40;
pub const NEEDLESS: usize = 41;
pub const TOO_LARGE: usize = 42;
pub const ENDS: usize = 43;
pub const LEFT_OVER: usize = 44;
pub const NO_ROOM: usize = 45;
pub const WRONG: usize = 46;

/// The least and the greatest number of a listing.
pub const LEAST: i64 = -1;
pub const GREATEST: i64 = i32::MAX as i64;

/// The last line: its word, the number that stands for it, and how many numbers follow.
#[derive(Clone, Copy, Debug, PartialEq, Eq)]
pub struct Word {
    pub word: &'static str,
    pub number: i64,
    pub numbers: usize,
}

pub const AUDIO: Word = Word {
    word: "audio",
    number: 0,
    numbers: 3,
};

pub const REFUSED: Word = Word {
    word: "refused",
    number: 1,
    numbers: 5,
};

#[derive(Clone, Debug, PartialEq, Eq)]
pub struct Listing {
    pub rows: Vec<[i64; ROW]>,
    pub word: Word,
    pub last: Vec<i64>,
}

impl Listing {
    /// As text.
    pub fn text(&self) -> Vec<u8> {
        let mut text = Vec::new();
        for row in &self.rows {
            print(&mut text, row);
        }
        text.extend(self.word.word.bytes());
        text.push(b' ');
        print(&mut text, &self.last);
        text
    }

    /// Packed.
    pub fn packed(&self) -> Vec<u8> {
        let mut packed = Vec::new();
        store(&mut packed, self.rows.len() as i64);
        for number in self.rows.iter().flatten() {
            store(&mut packed, *number);
        }
        store(&mut packed, self.word.number);
        for number in &self.last {
            store(&mut packed, *number);
        }
        packed
    }
}

/// Numbers in decimal, one space between, and a line feed.
fn print(text: &mut Vec<u8>, numbers: &[i64]) {
    for (i, number) in numbers.iter().enumerate() {
        if i > 0 {
            text.push(b' ');
        }
        text.extend(number.to_string().bytes());
    }
    text.push(b'\n');
}

/// A number plus one, in groups of seven bits, the lowest first, the high bit set while more follow.
fn store(packed: &mut Vec<u8>, number: i64) {
    groups(packed, (number + 1) as u64);
}

fn groups(packed: &mut Vec<u8>, stored: u64) {
    if stored < 128 {
        packed.push(stored as u8);
    } else {
        packed.push(128 | (stored % 128) as u8);
        groups(packed, stored / 128);
    }
}

/// What is still to be read; reading past the end is refusal 43.
struct Reader<'a>(&'a [u8]);

type Read<T> = Result<T, usize>;

impl Reader<'_> {
    fn byte(&mut self) -> Read<u8> {
        let (first, rest) = self.0.split_first().ok_or(ENDS)?;
        self.0 = rest;
        Ok(*first)
    }

    fn end(&self) -> Read<()> {
        if self.0.is_empty() {
            Ok(())
        } else {
            Err(LEFT_OVER)
        }
    }

    /// This byte and no other.
    fn exactly(&mut self, wanted: u8) -> Read<()> {
        if self.byte()? == wanted {
            Ok(())
        } else {
            Err(MALFORMED)
        }
    }

    /// A number as text, and the byte that ends it.
    fn decimal(&mut self, ends: u8) -> Read<i64> {
        match self.byte()? {
            b'-' => {
                self.exactly(b'1')?;
                self.exactly(ends)?;
                Ok(-1)
            }
            b'0' => {
                self.exactly(ends)?;
                Ok(0)
            }
            digit @ b'1'..=b'9' => self.digits(i64::from(digit - b'0'), ends),
            _ => Err(MALFORMED),
        }
    }

    /// The digits that follow those of `value`, and the byte that ends them.
    fn digits(&mut self, value: i64, ends: u8) -> Read<i64> {
        match self.byte()? {
            digit @ b'0'..=b'9' => {
                let value = 10 * value + i64::from(digit - b'0');
                if value > GREATEST {
                    return Err(TOO_LARGE);
                }
                self.digits(value, ends)
            }
            byte if byte == ends => Ok(value),
            _ => Err(MALFORMED),
        }
    }

    /// The rest of a line of so many numbers.
    fn line(&mut self, numbers: usize) -> Read<Vec<i64>> {
        (1..=numbers)
            .map(|n| self.decimal(if n < numbers { b' ' } else { b'\n' }))
            .collect()
    }

    /// The last line.
    fn last(&mut self, word: Word) -> Read<(Word, Vec<i64>)> {
        for letter in word.word.bytes() {
            self.exactly(letter)?;
        }
        self.exactly(b' ')?;
        Ok((word, self.line(word.numbers)?))
    }

    fn text(&mut self) -> Read<Listing> {
        let mut rows = Vec::new();
        // A row and the last line are told apart by their first byte.
        let (word, last) = loop {
            match self.0.first() {
                None => return Err(ENDS),
                Some(b'a') => break self.last(AUDIO)?,
                Some(b'r') => break self.last(REFUSED)?,
                Some(_) => rows.push(self.line(ROW)?.try_into().expect("nine numbers")),
            }
            if rows.len() as i64 > GREATEST {
                return Err(TOO_LARGE);
            }
        };
        self.end()?;
        Ok(Listing { rows, word, last })
    }

    /// A stored number.
    fn stored(&mut self) -> Read<i64> {
        Ok(self.group(0, 0)? - 1)
    }

    /// The groups from this one on, with what those before it make.
    fn group(&mut self, before: i64, which: u32) -> Read<i64> {
        let byte = self.byte()?;
        let (seven, more) = (i64::from(byte % 128), byte >= 128);
        // From the sixth on every group that is not 0 is too much.
        let stored = match which {
            0..=4 => before + (seven << (7 * which)),
            _ if seven == 0 => before,
            _ => return Err(TOO_LARGE),
        };
        if stored > GREATEST + 1 {
            return Err(TOO_LARGE);
        }
        match (more, seven) {
            (true, _) => self.group(stored, which.saturating_add(1)),
            (false, 0) if which > 0 => Err(NEEDLESS),
            (false, _) => Ok(stored),
        }
    }

    fn packed(&mut self) -> Read<Listing> {
        let count = self.stored()?;
        if count < 0 {
            return Err(WRONG);
        }
        let mut rows = Vec::new();
        for _ in 0..count {
            let mut row = [0; ROW];
            for number in &mut row {
                *number = self.stored()?;
            }
            rows.push(row);
        }
        let word = match self.stored()? {
            0 => AUDIO,
            1 => REFUSED,
            _ => return Err(WRONG),
        };
        let last: Read<_> = (0..word.numbers).map(|_| self.stored()).collect();
        let last = last?;
        self.end()?;
        Ok(Listing { rows, word, last })
    }
}

/// The listing that is all of this text.
pub fn read_text(text: &[u8]) -> Result<Listing, usize> {
    Reader(text).text()
}

/// The listing that is all of this packed form.
pub fn read_packed(packed: &[u8]) -> Result<Listing, usize> {
    Reader(packed).packed()
}

/// To the front of the room, if there is enough.
fn put(made: &[u8], out: &mut [u8]) -> PackAnswer {
    match out.get_mut(..made.len()) {
        Some(front) => {
            front.copy_from_slice(made);
            [0, made.len()]
        }
        None => [NO_ROOM, 0],
    }
}

/// A text's packed form to the front of `out`.
pub fn pack(text: &[u8], out: &mut [u8]) -> PackAnswer {
    match read_text(text) {
        Ok(listing) => put(&listing.packed(), out),
        Err(refusal) => [refusal, 0],
    }
}

/// A packed form's text to the front of `out`.
pub fn unpack(packed: &[u8], out: &mut [u8]) -> PackAnswer {
    match read_packed(packed) {
        Ok(listing) => put(&listing.text(), out),
        Err(refusal) => [refusal, 0],
    }
}
