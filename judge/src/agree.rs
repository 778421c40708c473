//! The checks made on every input: the cut copy against the published parser, the rows against
//! the table of names, their parts against what the rest of the rows tells, the bits of mantissas by slot against their groups, what did
//! not fit against the rows and against the same run in a longer frame, and the room rule in the cursor against the rule derived from the
//! run with ample room. A disagreement stops the program and shows the input.

use crate::ac3;
use crate::bits;
use crate::cut::{answer, walked, Answer, Unfit, MANY_ROWS};
use crate::error::Error;
use crate::hex;
use crate::layout::{row, row_at, ROW};
use crate::mantissas;
use crate::names;
use crate::parts;
use crate::tables::ac3_frame_words;
use std::rc::Rc;

/// An input's answer with ample room, and the rows written there.
pub struct Ample {
    pub answer: Answer,
    pub rows: Vec<i32>,
    /// The pointers that were walked over.
    pub pointers: Vec<u8>,
}

/// One call with given room, agreed upon.
pub struct Call {
    pub ample: Rc<Ample>,
    pub answer: Answer,
    /// Every number of the room after the call.
    pub room: Vec<i32>,
}

/// Number `i` of the room before a call.
pub fn untouched(i: usize) -> i32 {
    1_000_000 + i as i32
}

pub fn fresh_room(numbers: usize) -> Vec<i32> {
    (0..numbers).map(untouched).collect()
}

/// Holds the room that is ample for every input.
pub struct Judge {
    room: Vec<i32>,
}

impl Default for Judge {
    fn default() -> Self {
        Judge {
            room: vec![0; MANY_ROWS * ROW],
        }
    }
}

impl Judge {
    /// The answer with ample room; stops if the published parser says otherwise.
    pub fn ample(&mut self, capture: &[u8], place: usize) -> Ample {
        let (got, pointers) = walked(capture, place, &mut self.room);
        let rows = self.room[..got.rows * ROW].to_vec();
        let ample = Ample {
            answer: got,
            rows,
            pointers,
        };
        let data = capture.get(place..).unwrap_or(&[]);
        let agreed = agrees_with_published(&ample, data)
            .and_then(|_| parts::check(&ample.rows))
            .and_then(|_| counted_by_slot(&ample))
            .and_then(|_| told_what_did_not_fit(&ample))
            .and_then(|_| self.comes_next_in_a_longer_frame(&ample, data));
        if let Err(why) = agreed {
            panic!("{why}\nplace {place} of {}", hex::of(capture));
        }
        ample
    }

    /// At refusal 6, what did not fit is what comes next: the same fields in the longest frame of the same sampling rate, zeros at its end,
    /// give the same rows but for frmsizecod's value, and then a row of that name and block; or it does not fit there either.
    fn comes_next_in_a_longer_frame(&mut self, ample: &Ample, data: &[u8]) -> Result<(), String> {
        let Ample {
            answer: got, rows, ..
        } = ample;
        if got.number() != 6 {
            return Ok(());
        }
        let mut longer = data.to_vec();
        let fscod = bits::get(data, 32, 2) as usize;
        bits::set(&mut longer, 34, 6, 37);
        let words = ac3_frame_words(fscod, 37).expect("a size");
        longer.resize(2 * words, 0);
        let again = answer(&longer, 0, &mut self.room);
        let size = rows
            .chunks(ROW)
            .position(|r| r[row_at::NAME] == names::number("frmsizecod"));
        let size = size.expect("before the blocks") * ROW + row_at::VALUE;
        self.room[size] = rows[size];
        if again.rows < got.rows || self.room[..rows.len()] != rows[..] {
            return Err("other rows in a longer frame".into());
        }
        let next = match again.rows == got.rows {
            true => again.unfit(),
            false => Unfit {
                name: self.room[rows.len() + row_at::NAME],
                block: self.room[rows.len() + row_at::BLOCK],
            },
        };
        same("in a longer frame what comes next", got.unfit(), next)
    }

    /// The answer with room for `numbers` numbers, or with room that just suffices and `left_over`
    /// numbers; stops if it is not what the answer with ample room entails.
    pub fn call(&mut self, capture: &[u8], place: usize, room: Room) -> Call {
        let ample = Rc::new(self.ample(capture, place));
        call_within(ample, capture, place, room)
    }
}

/// The same, where the answer with ample room is known.
pub fn call_within(ample: Rc<Ample>, capture: &[u8], place: usize, room: Room) -> Call {
    let numbers = match room {
        Room::Numbers(n) => n,
        Room::Sufficient { left_over } => ROW * ample.answer.rows + left_over,
    };
    let mut room = fresh_room(numbers);
    let answer = answer(capture, place, &mut room);
    if let Err(why) = entailed(&ample, &answer, &room) {
        panic!(
            "{why}\n{numbers} numbers, place {place} of {}",
            hex::of(capture)
        );
    }
    Call {
        ample,
        answer,
        room,
    }
}

#[derive(Clone, Copy)]
pub enum Room {
    Numbers(usize),
    Sufficient { left_over: usize },
}

fn same<T: PartialEq + std::fmt::Debug>(what: &str, ours: T, published: T) -> Result<(), String> {
    if ours == published {
        Ok(())
    } else {
        Err(format!("{what}: {ours:?}, published {published:?}"))
    }
}

fn agrees_with_published(ample: &Ample, data: &[u8]) -> Result<(), String> {
    let Ample {
        answer: got, rows, ..
    } = ample;
    let mut end = 0;
    for row in rows.chunks(ROW) {
        if !names::fits(row) || row[row_at::POS] != end {
            return Err(format!("row {row:?} at bit {end}"));
        }
        end = row[row_at::POS] + row[row_at::WIDTH];
    }
    match (&got.verdict, ac3::parse(data)) {
        (Ok(s), Ok(f)) => {
            // The published fields have no part: see `parts`.
            let fields = f.fields[..got.rows].iter().zip(rows.chunks(ROW));
            let published: Vec<i32> = fields.flat_map(|(f, r)| row(f, r[row_at::PART])).collect();
            same("rows", rows, &published)?;
            let next = &f.fields[got.rows];
            same(
                "the field after them",
                (s.audio_end, "auxbits"),
                (next.pos, next.name),
            )?;
            same("the bit", got.bit, f.audio_end)?;
            let ours = (s.bytes, s.audio_end, s.bsid, s.acmod, s.lfeon, s.fscod);
            let theirs = (f.bytes, f.audio_end, f.bsid, f.acmod, f.lfeon, f.fscod);
            same("summary", ours, theirs)?;
            same("row count", s.rows, rows.len() / ROW)?;
            same("blocks with coupling", s.cpl_blocks, f.cpl_blocks)?;
            same("block starts", &s.block_starts[..], &f.block_starts)?;
            same(
                "mantissa starts",
                &s.mantissa_starts[..],
                &f.mantissa_starts,
            )?;
            same(
                "coordinates sent",
                s.coordinates_sent,
                coordinates_sent(rows),
            )
        }
        (Ok(s), Err(Error::Invalid(text))) => {
            // Only the tail, which is left behind, may refuse what the cut copy accepts.
            let tail = text.starts_with("audio data ends at bit") || text.starts_with("auxdatal");
            if !tail {
                return Err(format!("accepted, published: {text}"));
            }
            same(
                "coordinates sent",
                s.coordinates_sent,
                coordinates_sent(rows),
            )
        }
        (Err(no), Err(e @ (Error::Invalid(_) | Error::Truncated(_)))) => {
            same(
                "past the frame",
                no.number == 6,
                matches!(e, Error::Truncated(_)),
            )?;
            let (Error::Invalid(text) | Error::Truncated(text)) = e else {
                unreachable!()
            };
            same("refusal", &no.text, &text)?;
            if no.number == 0 {
                return Err(format!("cannot happen: {text}"));
            }
            // A refusal stands where the last row ends, but for a mantissa that does not fit.
            if got.bit as i32 != end && !(no.number == 6 && text.starts_with("mantissa ")) {
                return Err(format!("{text}: bit {} after rows to {end}", got.bit));
            }
            Ok(())
        }
        (ours, published) => Err(format!("{ours:?}, published {published:?}")),
    }
}

/// The bits of an accepted frame's mantissas by slot, against its rows and pointers.
fn counted_by_slot(ample: &Ample) -> Result<(), String> {
    match &ample.answer.verdict {
        Ok(summary) => mantissas::check(&ample.rows, &ample.pointers, &summary.mantissa_bits),
        Err(_) => Ok(()),
    }
}

/// At refusal 6 alone something did not fit: the Rust's text begins with its name (a mantissa stands for its block's), and its block is
/// that of the last row, or the next one at the first field of a block.
fn told_what_did_not_fit(ample: &Ample) -> Result<(), String> {
    let Ample {
        answer: got, rows, ..
    } = ample;
    let expected = match &got.verdict {
        Err(no) if no.number == 6 => {
            let name = match no.text.split(' ').next().expect("a word") {
                "mantissa" => "mantissas",
                name => name,
            };
            let last = &rows[rows.len() - ROW..];
            let [first, last_name] = [names::number("blksw"), last[row_at::NAME]];
            let opens = names::number(name) == first && last_name != first;
            Unfit {
                name: names::number(name),
                block: last[row_at::BLOCK] + i32::from(opens),
            }
        }
        _ => Unfit::NONE,
    };
    same("what did not fit", got.unfit(), expected)
}

/// The summary's "coordinates sent", read off the rows of an accepted frame, word for word: in every block each coupled channel has cplcoe
/// 1 there, or had it in an earlier block while it was coupled. (cplinu and chincpl say which are coupled, as last sent.)
fn coordinates_sent(rows: &[i32]) -> bool {
    let [cplinu, chincpl, cplcoe] = ["cplinu", "chincpl", "cplcoe"].map(names::number);
    let flags = rows.chunks(ROW);
    let flags = flags.filter(|r| [cplinu, chincpl, cplcoe].contains(&r[row_at::NAME]));
    let flags: Vec<&[i32]> = flags.collect();
    let of = |name: i32, block: i32| {
        let named = flags.iter().filter(move |r| r[row_at::NAME] == name);
        named.filter(move |r| r[row_at::BLOCK] == block)
    };
    let mut coupled = [[false; 5]; 6];
    for block in 0..6 {
        if block > 0 {
            coupled[block] = coupled[block - 1];
        }
        for row in of(cplinu, block as i32) {
            coupled[block] = [false; 5];
            for flag in of(chincpl, block as i32) {
                coupled[block][flag[row_at::INDEX] as usize] = flag[row_at::VALUE] == 1;
            }
            assert!(row[row_at::VALUE] == 1 || coupled[block] == [false; 5]);
        }
    }
    let has = |block: usize, channel: usize| {
        let sent = |row: &&[i32]| (row[row_at::INDEX], row[row_at::VALUE]) == (channel as i32, 1);
        coupled[block][channel] && of(cplcoe, block as i32).any(sent)
    };
    (0..6).all(|block| {
        let mut channels = (0..5).filter(|channel| coupled[block][*channel]);
        channels.all(|channel| (0..=block).any(|earlier| has(earlier, channel)))
    })
}

/// The answer with this room is the one with ample room, or refusal 7 where the rows end.
fn entailed(ample: &Ample, answer: &Answer, room: &[i32]) -> Result<(), String> {
    let limit = room.len() / ROW;
    let expected = if ample.answer.rows <= limit {
        if answer != &ample.answer {
            return Err(format!("{answer:?}, with ample room {:?}", ample.answer));
        }
        (
            ample.answer.number(),
            ample.answer.rows,
            ample.answer.bit,
            ample.answer.unfit(),
        )
    } else {
        let missing = &ample.rows[ROW * limit..][..ROW];
        let walked = missing[row_at::NAME] == names::number("mantissas");
        let bit = missing[row_at::POS] + if walked { missing[row_at::WIDTH] } else { 0 };
        (7, limit, bit as usize, Unfit::NONE)
    };
    same(
        "the room rule",
        (answer.number(), answer.rows, answer.bit, answer.unfit()),
        expected,
    )?;
    let written = ROW * answer.rows;
    if room[..written] != ample.rows[..written] {
        return Err("rows differ from those with ample room".into());
    }
    match (written..room.len()).find(|&i| room[i] != untouched(i)) {
        Some(i) => Err(format!("number {i} of the room was touched")),
        None => Ok(()),
    }
}
