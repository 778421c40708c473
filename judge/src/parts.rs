//! What a row's last number, its part, means: told from the other eight by two rules that do not know of each other, and of which the parser
//! knows neither.
//!
//! By counting: in each block the rows of one name and index have the parts 0, 1, 2 and so on, as they come. By place: after the field that
//! opens them, parts follow one another in rounds of equal width, so a row's first bit tells its part. Eleven names have parts.

use crate::layout::{row_at, NO_PART, ROW};
use crate::names::{self, number};
use std::sync::OnceLock;

/// The names that have parts: the field that stands directly before their first round, the bits of a round, and where in it they begin.
pub const PARTED: [(&str, &str, i32, i32); 11] = [
    ("cplcoexp", "mstrcplco", 8, 0),
    ("cplcomant", "mstrcplco", 8, 4),
    ("cplexps", "cplabsexp", 7, 0),
    ("exps[ch]", "exps[ch][0]", 7, 0),
    ("lfeexps", "lfeexps[0]", 7, 0),
    ("cpldeltoffst", "cpldeltnseg", 12, 0),
    ("cpldeltlen", "cpldeltnseg", 12, 5),
    ("cpldeltba", "cpldeltnseg", 12, 9),
    ("deltoffst", "deltnseg", 12, 0),
    ("deltlen", "deltnseg", 12, 5),
    ("deltba", "deltnseg", 12, 9),
];

/// A name with parts: the number of the field before its first round, the bits of a round, and where in it the name begins.
#[derive(Clone, Copy)]
struct Rounds {
    opener: usize,
    bits: i32,
    begins: i32,
}

/// By the number of the name.
fn rounds() -> &'static [Option<Rounds>; names::COUNT + 1] {
    static ROUNDS: OnceLock<[Option<Rounds>; names::COUNT + 1]> = OnceLock::new();
    ROUNDS.get_or_init(|| {
        let mut rounds = [None; names::COUNT + 1];
        for (name, opener, bits, begins) in PARTED {
            rounds[number(name) as usize] = Some(Rounds {
                opener: number(opener) as usize,
                bits,
                begins,
            });
        }
        rounds
    })
}

/// What was met of a name and index in the block.
#[derive(Clone, Copy, Default)]
struct Met {
    rows: i32,
    end: i32,
}

/// The indexes that parted names and their openers can have: channels 0 to 4, and coupling's slot.
const INDEXES: usize = 6;

/// The parts that a frame's rows have by each rule; the rows' own are not looked at.
pub fn told(rows: &[i32]) -> Vec<[i32; 2]> {
    let mut block = -1;
    let mut met = [[Met::default(); INDEXES]; names::COUNT + 1];
    let mut told = Vec::with_capacity(rows.len() / ROW);
    for row in rows.chunks(ROW) {
        if row[row_at::BLOCK] != block {
            block = row[row_at::BLOCK];
            met = [[Met::default(); INDEXES]; names::COUNT + 1];
        }
        let (name, index) = (row[row_at::NAME] as usize, row[row_at::INDEX] as usize);
        told.push(match rounds()[name] {
            None => [NO_PART; 2],
            Some(rounds) => {
                let from = met[rounds.opener][index].end + rounds.begins;
                let bits = row[row_at::POS] - from;
                let by_place = match bits % rounds.bits {
                    0 => bits / rounds.bits,
                    _ => NO_PART,
                };
                [met[name][index].rows, by_place]
            }
        });
        if let Some(met) = met[name].get_mut(index) {
            met.rows += 1;
            met.end = row[row_at::POS] + row[row_at::WIDTH];
        }
    }
    told
}

/// Every row has the part that both rules tell.
pub fn check(rows: &[i32]) -> Result<(), String> {
    for (row, told) in rows.chunks(ROW).zip(told(rows)) {
        if told != [row[row_at::PART]; 2] {
            return Err(format!(
                "row {row:?}: by counting and by place its part is {told:?}"
            ));
        }
    }
    Ok(())
}
