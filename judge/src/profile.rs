//! The contribution profile, written from the words of its description and not from the port: fscod 0, acmod 2 or 7, bsid 6 or 8, words 384
//! or more, lfeon only with acmod 7, no block with deltbaie 1, dialnorm not 0.
//!
//! The frame is parsed by `cut`, so its refusals and the rows in the lent room are those of a parse. An answer is four numbers: refusal (0:
//! none), rows of the parse, the first broken rule in this order (0: none), the row, from 0, that breaks it. Every row is held against every
//! rule, and the first of all that break one is told.

use crate::cut;
use crate::layout::{row_at, ProfileAnswer, ROW};
use crate::names::number;
use crate::tables::ac3_frame_words;

/// The rules are 1 to this.
pub const RULES: usize = 7;

pub const FSCOD: usize = 1;
pub const ACMOD: usize = 2;
pub const BSID: usize = 3;
pub const WORDS: usize = 4;
pub const LFEON: usize = 5;
pub const DELTBAIE: usize = 6;
pub const DIALNORM: usize = 7;

/// The least words: 192 kbit/s.
pub const LEAST_WORDS: usize = 384;

/// The name whose rows can break a rule, by the rule, from 1.
pub const JUDGED: [&str; RULES] = [
    "fscod",
    "acmod",
    "bsid",
    "frmsizecod",
    "lfeon",
    "deltbaie",
    "dialnorm",
];

/// The value of the only row of a name that every header has.
fn value(rows: &[i32], name: &str) -> usize {
    let named = number(name);
    let mut of_name = rows.chunks(ROW).filter(|r| r[row_at::NAME] == named);
    let row = of_name.next().expect("every header has it");
    assert!(of_name.next().is_none(), "{name} stands once");
    row[row_at::VALUE] as usize
}

/// Every broken rule with every row that breaks it, in the order of the rules, then of the rows; of an accepted frame's rows.
pub fn broken(rows: &[i32]) -> Vec<(usize, usize)> {
    let (fscod, acmod) = (value(rows, "fscod"), value(rows, "acmod"));
    let judged = JUDGED.map(number);
    let mut broken = Vec::new();
    for (at, row) in rows.chunks(ROW).enumerate() {
        let value = row[row_at::VALUE] as usize;
        for (rule, name) in (1..).zip(judged) {
            if row[row_at::NAME] != name {
                continue;
            }
            let keeps = match rule {
                FSCOD => value == 0,
                ACMOD => value == 2 || value == 7,
                BSID => value == 6 || value == 8,
                WORDS => ac3_frame_words(fscod, value).expect("a size") >= LEAST_WORDS,
                LFEON => value == 0 || acmod == 7,
                DELTBAIE => value != 1,
                _ => value != 0,
            };
            if !keeps {
                broken.push((rule, at));
            }
        }
    }
    broken.sort();
    broken
}

/// Holds the frame at byte `place` of `capture` against the profile.
pub fn profile(capture: &[u8], place: usize, room: &mut [i32]) -> ProfileAnswer {
    let parsed = cut::answer(capture, place, room);
    let rows = parsed.rows as i32;
    if let Err(no) = parsed.verdict {
        return [no.number as i32, rows, 0, 0];
    }
    match broken(&room[..ROW * parsed.rows]).first() {
        Some((rule, row)) => [0, rows, *rule as i32, *row as i32],
        None => [0, rows, 0, 0],
    }
}
