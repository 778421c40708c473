//! The text list of cases: its form, and one case at a time in both directions.

use crate::cases::{Case, Edit};
use crate::layout::{answer_at, summary, ANSWER};
use std::fmt::Write;

/// The numbers of an answer that a line has whatever the answer, in their order there.
const TOLD: [usize; 5] = [
    answer_at::REFUSAL,
    answer_at::ROWS,
    answer_at::BIT,
    answer_at::NAME,
    answer_at::BLOCK,
];

/// The head of the file.
pub const HEAD: &str = "\
# One item to a line, words separated by one space:
#   frame HEX                                 the capture for the cases that follow
#   case EDIT KEEP PLACE NUMBERS : NUMBER ROWS BIT NAME BLOCK CHECKSUM [SUMMARY...]
# EDIT      `-`, or AT,WIDTH,VALUE: first overwrite WIDTH bits of the capture at bit AT with VALUE
# KEEP      then keep this many bytes of the capture
# PLACE     the byte at which to parse
# NUMBERS   the length of the lent room; its number i is 1000000 + i before the call
# NUMBER    0: accepted, else the refusal; ROWS and BIT as docs/FORMAT.md says, BIT being audio_end if accepted
# NAME      with BLOCK what did not fit, at refusal 6; else 0 and -1
# CHECKSUM  over every number of the room after the call: h = 2166136261, then for each number, as its four
#           bytes lowest first, h = (h XOR byte) * 16777619 mod 2^32; in decimal
# SUMMARY   on acceptance, the numbers of the summary in the order of docs/FORMAT.md; yes is 1
";

/// The checksum over a room's numbers.
pub fn checksum(numbers: &[i32]) -> u32 {
    let bytes = numbers.iter().flat_map(|n| n.to_le_bytes());
    bytes.fold(2_166_136_261, |h, b| {
        (h ^ u32::from(b)).wrapping_mul(16_777_619)
    })
}

/// What a list says of a call: the answer's numbers and the room's checksum.
#[derive(Clone, Debug, PartialEq, Eq)]
pub struct Said {
    pub numbers: [i32; ANSWER],
    pub checksum: u32,
}

/// A call as a list holds it.
#[derive(Clone, Debug, PartialEq, Eq)]
pub struct Listed {
    pub edit: Option<Edit>,
    pub keep: usize,
    pub place: usize,
    pub numbers: usize,
    pub said: Said,
}

/// What the judge says of a case.
pub fn said(case: &Case<'_>) -> Said {
    Said {
        numbers: case.call.answer.numbers(),
        checksum: checksum(&case.call.room),
    }
}

pub fn listed(case: &Case<'_>) -> Listed {
    Listed {
        edit: case.edit,
        keep: case.keep,
        place: case.place,
        numbers: case.call.room.len(),
        said: said(case),
    }
}

impl Listed {
    pub fn line(&self) -> String {
        let mut out = String::from("case ");
        match self.edit {
            None => out.push('-'),
            Some(e) => write!(out, "{},{},{}", e.at, e.width, e.value).expect("text"),
        }
        let said = &self.said;
        let told = TOLD.map(|at| said.numbers[at].to_string());
        write!(
            out,
            " {} {} {} : {} {}",
            self.keep,
            self.place,
            self.numbers,
            told.join(" "),
            said.checksum
        )
        .expect("text");
        if said.numbers[answer_at::REFUSAL] == 0 {
            for at in summary() {
                write!(out, " {}", said.numbers[at]).expect("text");
            }
        }
        out
    }

    /// Reads a line that begins with `case `.
    pub fn read(line: &str) -> Listed {
        let (call, said) = line["case ".len()..].split_once(" : ").expect("a case");
        let call: Vec<&str> = call.split(' ').collect();
        let edit = (call[0] != "-").then(|| {
            let parts: Vec<usize> = call[0]
                .split(',')
                .map(|n| n.parse().expect("a number"))
                .collect();
            Edit {
                at: parts[0],
                width: parts[1],
                value: parts[2] as u32,
            }
        });
        let [keep, place, room] = [1, 2, 3].map(|i| call[i].parse().expect("a number"));
        let said: Vec<i64> = said
            .split(' ')
            .map(|n| n.parse().expect("a number"))
            .collect();
        let (told, rest) = said.split_at(TOLD.len());
        let (checksum, rest) = rest.split_first().expect("a checksum");
        let mut numbers = [0; ANSWER];
        for (at, from) in TOLD
            .into_iter()
            .chain(summary())
            .zip(told.iter().chain(rest))
        {
            numbers[at] = *from as i32;
        }
        Listed {
            edit,
            keep,
            place,
            numbers: room,
            said: Said {
                numbers,
                checksum: *checksum as u32,
            },
        }
    }
}
