//! Frames made to order: the parser asks for each value, a rule gives the values that matter and
//! the plainest ones that pass stand for the rest. What is never read stays 0.
//!
//! Without a rule this is one channel (acmod 1) with bsid 8, the narrowest bandwidth, all exponents
//! 0, all SNR offsets 0, and nothing sent after block 0.

use crate::bits;
use crate::cut::{ac3, Cursor, Source, MANY_ROWS};
use crate::layout::ROW;
use crate::tables::ac3_frame_words;

/// What the parser asks for: a name, its index, the block (-1: the header).
pub struct Asked {
    pub name: &'static str,
    pub index: i16,
    pub block: i8,
    /// How many values of this name, index and block were asked for before.
    pub nth: usize,
}

impl Asked {
    /// True in block `block` for the name.
    pub fn is(&self, name: &str, block: i8) -> bool {
        self.name == name && self.block == block
    }
}

pub type Rule<'a> = &'a dyn Fn(&Asked) -> Option<u32>;

struct Craft<'a> {
    frame: Vec<u8>,
    rule: Rule<'a>,
    asked: Vec<(&'static str, i16, i8)>,
}

/// A group of three steps of 0.
pub const LEVEL: u32 = 62;

fn plain(asked: &Asked) -> u32 {
    let first = asked.block == 0;
    match asked.name {
        "syncword" => 0x0B77,
        "bsid" => 8,
        "acmod" => 1,
        "cplstre" | "rematstr" | "lfeexpstr" | "baie" | "snroffste" => first.into(),
        "cplexpstr" | "chexpstr" if first => 3,
        "cplexps" | "exps[ch]" | "lfeexps" => LEVEL,
        "cpldeltbae" | "deltbae" => 2,
        _ => 0,
    }
}

impl Source for &mut Craft<'_> {
    fn bytes(&self) -> usize {
        self.frame.len()
    }

    fn field(&mut self, name: &'static str, index: i16, block: i8, at: usize, width: usize) -> u32 {
        let key = (name, index, block);
        let nth = self.asked.iter().filter(|&&k| k == key).count();
        self.asked.push(key);
        let asked = Asked {
            name,
            index,
            block,
            nth,
        };
        let value = (self.rule)(&asked).unwrap_or_else(|| plain(&asked));
        assert!(value < 1 << width, "{name} takes {width} bits");
        bits::set(&mut self.frame, at, width, value);
        value
    }
}

/// A frame of the size that fscod and frmsizecod give, with the rule's values as far as the
/// parser comes.
pub fn sized(fscod: u32, frmsizecod: u32, rule: Rule<'_>) -> Vec<u8> {
    let words = ac3_frame_words(fscod as usize, frmsizecod as usize).expect("a size");
    let rule = |asked: &Asked| match asked.name {
        "fscod" => Some(fscod),
        "frmsizecod" => Some(frmsizecod),
        _ => rule(asked),
    };
    let mut craft = Craft {
        frame: vec![0; 2 * words],
        rule: &rule,
        asked: Vec::new(),
    };
    let mut room = vec![0; MANY_ROWS * ROW];
    // Refused or accepted, the frame holds what was asked for.
    let _ = ac3::parse(&mut Cursor::new(&mut craft, &mut room));
    craft.frame
}

/// The smallest frame, 128 bytes, with the rule's values.
pub fn small(rule: Rule<'_>) -> Vec<u8> {
    sized(0, 0, rule)
}
