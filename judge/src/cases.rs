//! The generator of inputs, the same for the same seed and size: the contract's example, corner
//! cases, an encoder's frames and drawn frames; whole, damaged, truncated, moved to a later place
//! of a longer capture, moved across the frame's end, and with too little room. Every input
//! passes the checks of `agree`.

use crate::agree::{call_within, Call, Judge, Room};
use crate::bits;
use crate::corners;
use crate::craft::small;
use crate::draw::{accepted, Style};
use crate::frames;
use crate::goals::{Counts, SEVEN, SIX};
use crate::layout::{row_at, ROW};
use crate::moving::moved;
use crate::names;
use crate::rng::Rng;
use std::collections::BTreeSet;
use std::rc::Rc;

/// Bits of a capture to overwrite before the call.
#[derive(Clone, Copy, Debug, PartialEq, Eq)]
pub struct Edit {
    pub at: usize,
    pub width: usize,
    pub value: u32,
}

/// The longest capture that is made.
pub const LONGEST: usize = 8192;

/// One call: a capture, edited, cut to `keep` bytes, and parsed at `place` with the room of the
/// call; and what the judge answers.
pub struct Case<'a> {
    pub capture: &'a [u8],
    pub edit: Option<Edit>,
    pub keep: usize,
    pub place: usize,
    /// The capture after edit and cut.
    pub input: &'a [u8],
    pub call: &'a Call,
    /// Its place in the list of corner cases, if it is one.
    pub corner: Option<i32>,
}

/// The capture that a call sees.
pub fn input(capture: &[u8], edit: Option<Edit>, keep: usize) -> Vec<u8> {
    let mut input = capture.to_vec();
    if let Some(e) = edit {
        bits::set(&mut input, e.at, e.width, e.value);
    }
    input.truncate(keep);
    input
}

/// How many inputs of each sort are made.
#[derive(Clone, Copy)]
pub struct Amounts {
    /// Drawn frames of each of the 114 sizes, and of any size.
    pub of_each_size: usize,
    pub of_any_size: usize,
    /// Every how many of the kept encoder's files is taken.
    pub every_file: usize,
    /// Rewritten fields per frame: of a corner case, of an encoder, drawn.
    pub rewritten: [usize; 3],
    /// Is every other drawn frame, and one in ten of the encoder's, swept as well (see `sweep`)?
    pub swept: bool,
}

impl Amounts {
    pub fn of_size(size: usize) -> Self {
        Amounts {
            of_each_size: size,
            of_any_size: 60 * size,
            every_file: 1,
            rewritten: [40, 16, 40],
            swept: false,
        }
    }

    /// The same with sweeps, for millions of inputs.
    pub fn swept(size: usize) -> Self {
        Amounts {
            swept: true,
            ..Self::of_size(size)
        }
    }

    /// Fewer, for the text list: it is to stay small.
    pub fn for_list(size: usize) -> Self {
        Amounts {
            of_each_size: size,
            of_any_size: 30 * size,
            every_file: 3,
            rewritten: [12, 6, 16],
            swept: false,
        }
    }
}

pub struct Generator<'s> {
    rng: Rng,
    judge: Judge,
    pub counts: Counts,
    pub calls: usize,
    pub accepted_rows: usize,
    pub most_rows: usize,
    /// Inputs made by sweeps: truncations, places, rooms.
    pub swept: [usize; 3],
    /// Names whose values are judged or steer.
    steering: Vec<i32>,
    /// The corner case now being made.
    corner: Option<i32>,
    sink: &'s mut dyn FnMut(&Case<'_>),
}

impl<'s> Generator<'s> {
    pub fn new(seed: u64, sink: &'s mut dyn FnMut(&Case<'_>)) -> Self {
        let spans_and_free = |n: &i32| names::of(*n).free || names::of(*n).role.is_span();
        Generator {
            rng: Rng(seed),
            judge: Judge::default(),
            counts: Counts::default(),
            calls: 0,
            accepted_rows: 0,
            most_rows: 0,
            swept: [0; 3],
            steering: (1..=names::COUNT as i32)
                .filter(|n| !spans_and_free(n))
                .collect(),
            corner: None,
            sink,
        }
    }

    /// One case. Returns the refusal's number, 0 for none.
    fn case(
        &mut self,
        capture: &[u8],
        edit: Option<Edit>,
        keep: usize,
        place: usize,
        room: Room,
    ) -> u32 {
        assert!(capture.len() <= LONGEST);
        let edited;
        let input = match edit {
            None => &capture[..keep],
            Some(_) => {
                edited = input(capture, edit, keep);
                &edited
            }
        };
        let call = self.judge.call(input, place, room);
        let corner = self.corner.take();
        self.give(&Case {
            capture,
            edit,
            keep,
            place,
            input,
            call: &call,
            corner,
        })
    }

    /// Counts a case and hands it on. Returns the refusal's number, 0 for none.
    fn give(&mut self, case: &Case<'_>) -> u32 {
        let call = case.call;
        self.calls += 1;
        if call.answer.verdict.is_ok() {
            self.accepted_rows += call.answer.rows;
            self.most_rows = self.most_rows.max(call.answer.rows);
        }
        self.counts.add(case);
        (self.sink)(case);
        call.answer.number()
    }

    /// Room that just suffices, with a few numbers left over.
    fn sufficient(&mut self) -> Room {
        Room::Sufficient {
            left_over: self.rng.below(ROW),
        }
    }

    fn at_zero(&mut self, capture: &[u8], edit: Option<Edit>) -> u32 {
        let room = self.sufficient();
        self.case(capture, edit, capture.len(), 0, room)
    }

    fn with_rows(&mut self, capture: &[u8], rows: usize) -> u32 {
        let room = Room::Numbers(ROW * rows + self.rng.below(ROW));
        self.case(capture, None, capture.len(), 0, room)
    }

    /// An accepted frame as it is; gives its rows.
    fn whole(&mut self, frame: &[u8]) -> Vec<i32> {
        assert_eq!(self.at_zero(frame, None), 0, "an accepted frame");
        self.judge.ample(frame, 0).rows
    }

    /// Room from none to one row too many.
    fn rooms(&mut self, capture: &[u8], rows: usize, step: usize) {
        let ample = Rc::new(self.judge.ample(capture, 0));
        for limit in (0..=rows + 1).step_by(step) {
            let room = Room::Numbers(ROW * limit + self.rng.below(ROW));
            let call = call_within(ample.clone(), capture, 0, room);
            self.give(&Case {
                capture,
                edit: None,
                keep: capture.len(),
                place: 0,
                input: capture,
                call: &call,
                corner: None,
            });
        }
    }

    /// The first bytes of a capture, from none to all.
    fn truncations(&mut self, capture: &[u8]) {
        for keep in 0..=capture.len() {
            let room = self.sufficient();
            self.case(capture, None, keep, 0, room);
        }
    }

    /// Every place of a longer capture, up to one past its end: beginnings of the frame, the frame, and a last beginning of it, so that
    /// more places than one have a sync word.
    fn every_place(&mut self, frame: &[u8]) {
        let mut capture = Vec::new();
        for _ in 0..self.rng.below(8) {
            let begun = 2 + self.rng.below(60);
            capture.extend(&frame[..begun]);
        }
        capture.extend(frame);
        let begun = self.rng.below(frame.len());
        capture.extend(&frame[..begun]);
        for place in 0..=capture.len() + 1 {
            let room = self.sufficient();
            self.case(&capture, None, capture.len(), place, room);
        }
    }

    /// An accepted frame truncated at every byte, at every place of a longer capture, and in every room.
    fn sweep(&mut self, frame: &[u8], rows: usize) {
        let began = self.calls;
        self.truncations(frame);
        let truncated = self.calls;
        self.every_place(frame);
        let placed = self.calls;
        self.rooms(frame, rows, 1);
        self.swept[0] += truncated - began;
        self.swept[1] += placed - truncated;
        self.swept[2] += self.calls - placed;
    }

    /// What docs/FORMAT.md asks to run and compare: chbwcod 60 and 61, rows one too few, a frame one byte short; the mantissas of these frames
    /// have no width.
    pub fn run_and_compared(&mut self) {
        for chbwcod in [60, 61] {
            let frame = small(&|a| (a.name == "chbwcod").then_some(chbwcod));
            self.at_zero(&frame, None);
            let rows = self.judge.ample(&frame, 0).rows.len() / ROW;
            self.sweep(&frame, rows);
        }
    }

    /// A row of a name chosen first, so that rare names have their turn; none if no row is wanted.
    fn pick<'a>(
        &mut self,
        rows: &'a [i32],
        wanted: impl Fn(&[i32]) -> bool,
    ) -> Option<(usize, &'a [i32])> {
        let all = rows.chunks(ROW).enumerate();
        let all: Vec<(usize, &[i32])> = all.filter(|(_, r)| wanted(r)).collect();
        let names: BTreeSet<i32> = all.iter().map(|(_, r)| r[row_at::NAME]).collect();
        let name = *names.iter().nth(self.rng.below(names.len().max(1)))?;
        let of_name: Vec<_> = all
            .into_iter()
            .filter(|(_, r)| r[row_at::NAME] == name)
            .collect();
        Some(of_name[self.rng.below(of_name.len())])
    }

    /// Fields rewritten with other values; sometimes the bits behind them as well.
    fn rewrite(&mut self, capture: &[u8], rows: &[i32], times: usize) {
        let steering = self.steering.clone();
        for _ in 0..times {
            let any = self.rng.chance(10);
            let wanted = |r: &[i32]| {
                !names::of(r[row_at::NAME]).role.is_span()
                    && (any || steering.contains(&r[row_at::NAME]))
            };
            let Some((_, row)) = self.pick(rows, wanted) else {
                return;
            };
            let (at, mut width) = (row[row_at::POS] as usize, row[row_at::WIDTH] as usize);
            let mut value = match width {
                1 => 1 - row[row_at::VALUE] as u32,
                _ => self.rng.below(1 << width) as u32,
            };
            if self.rng.chance(25) && at + 24 <= 8 * capture.len() {
                (width, value) = (24, self.rng.below(1 << 24) as u32);
            }
            self.at_zero(capture, Some(Edit { at, width, value }));
        }
    }

    /// Room that ends just before a row: every other time one of the name met least so far.
    fn full_at(&mut self, capture: &[u8], rows: &[i32], times: usize) {
        for i in 0..times {
            let met = |r: &[i32]| self.counts.of((SEVEN, r[row_at::NAME], 0));
            let least = rows.chunks(ROW).map(met).min().expect("rows");
            let names: BTreeSet<i32> = match i % 2 {
                0 => rows
                    .chunks(ROW)
                    .filter(|r| met(r) == least)
                    .map(|r| r[row_at::NAME])
                    .collect(),
                _ => rows.chunks(ROW).map(|r| r[row_at::NAME]).collect(),
            };
            let (limit, _) = self
                .pick(rows, |r| names.contains(&r[row_at::NAME]))
                .expect("rows");
            self.with_rows(capture, limit);
        }
    }

    /// Other values in every field whose value never steers give the same rows but for those values.
    fn free_values(&mut self, frame: &[u8], rows: &[i32]) {
        let mut edited = frame.to_vec();
        let mut expected = rows.to_vec();
        for row in expected
            .chunks_mut(ROW)
            .filter(|r| names::of(r[row_at::NAME]).free)
        {
            let width = row[row_at::WIDTH] as usize;
            row[row_at::VALUE] = self.rng.below(1 << width) as i32;
            bits::set(
                &mut edited,
                row[row_at::POS] as usize,
                width,
                row[row_at::VALUE] as u32,
            );
        }
        assert_eq!(self.at_zero(&edited, None), 0, "free values steer nothing");
        assert_eq!(
            self.judge.ample(&edited, 0).rows,
            expected,
            "nor any other row"
        );
    }

    /// Demand 3's ground: other bits in the spans give the same rows.
    fn other_spans(&mut self, frame: &[u8], rows: &[i32]) {
        let mut edited = frame.to_vec();
        for row in rows
            .chunks(ROW)
            .filter(|r| names::of(r[row_at::NAME]).role.is_span())
        {
            for at in row[row_at::POS]..row[row_at::POS] + row[row_at::WIDTH] {
                bits::set(&mut edited, at as usize, 1, self.rng.below(2) as u32);
            }
        }
        assert_eq!(self.at_zero(&edited, None), 0, "spans steer nothing");
        assert_eq!(self.judge.ample(&edited, 0).rows, rows, "nor any row");
    }

    /// Refusal 6 at a row of a later block, which is moved across the frame's end; in three of four
    /// times at a name that was met least so far.
    fn overrun(&mut self, capture: &[u8], rows: &[i32]) {
        let by_rarity = self.rng.chance(75);
        let later = rows
            .chunks(ROW)
            .filter(|r| r[row_at::BLOCK] > 0 && r[row_at::WIDTH] > 0);
        let mut later: Vec<(usize, u64, &[i32])> = later
            .map(|r| {
                let met = if by_rarity {
                    self.counts.of((SIX, r[row_at::NAME], 0))
                } else {
                    0
                };
                (met, self.rng.draw(), r)
            })
            .collect();
        later.sort();
        for (_, _, row) in later {
            let (pos, width) = (row[row_at::POS] as usize, row[row_at::WIDTH] as usize);
            if let Some(frame) = moved(capture, rows, pos, 0..width.min(64)) {
                assert_eq!(self.at_zero(&frame, None), 6, "past the frame's end");
                return;
            }
        }
    }

    /// An accepted frame whose audio ends at the frame's last bit, or less than 18 bits before it.
    fn tight(&mut self, capture: &[u8], rows: &[i32]) {
        let last = &rows[rows.len() - ROW..];
        let slack = self.rng.pick(&[0, 0, 1, 8, 10, 17]);
        let audio_end = (last[row_at::POS] + last[row_at::WIDTH]) as usize;
        if let Some(frame) = moved(capture, rows, audio_end, slack..18) {
            self.whole(&frame);
        }
    }

    /// The same fields in smaller or larger frame sizes: refusal 6 wherever the new end falls.
    fn resize(&mut self, capture: &[u8], times: usize) {
        for _ in 0..times {
            let value = self.rng.below(4 * 64) as u32;
            let (at, width) = (32, 8);
            self.at_zero(capture, Some(Edit { at, width, value }));
        }
    }

    /// The frame inside a longer capture, and places around it.
    fn places(&mut self, frame: &[u8]) {
        let before = 1 + self.rng.below(40);
        let mut capture = self.rng.bytes(before);
        capture.extend(frame);
        let after = self.rng.below(9);
        capture.extend(self.rng.bytes(after));
        let n = capture.len();
        for place in [
            before,
            0,
            before + 1,
            before - 1,
            n - 6,
            n - 5,
            n,
            n + 1,
            n + 1000,
        ] {
            let room = self.sufficient();
            self.case(&capture, None, n, place, room);
        }
        let room = self.sufficient();
        self.case(&capture, None, before + frame.len() - 1, before, room);
        let short = Room::Numbers(ROW * self.rng.below(60) + self.rng.below(ROW));
        self.case(&capture, None, n, before, short);
    }

    /// The frames of a stream as one capture, each at its place; gives each frame alone.
    fn stream(&mut self, stream: &[u8]) -> Vec<Vec<u8>> {
        let mut frames = Vec::new();
        let mut at = 0;
        while at < stream.len() {
            let room = self.sufficient();
            let kept = &stream[..stream.len().min(LONGEST)];
            if at < kept.len() {
                self.case(kept, None, kept.len(), at, room);
            }
            let Ok(summary) = self.judge.ample(stream, at).answer.verdict else {
                break;
            };
            frames.push(stream[at..at + summary.bytes].to_vec());
            at += summary.bytes;
        }
        frames
    }

    /// One bit of the frame turned, at any place.
    fn flip(&mut self, frame: &[u8], at: usize) {
        let value = 1 - bits::get(frame, at, 1);
        let width = 1;
        self.at_zero(frame, Some(Edit { at, width, value }));
    }

    /// The example of docs/FORMAT.md, and inputs too short to hold a header.
    fn example(&mut self) {
        let example = [0x0B, 0x77, 0, 0, 0xC0, 0];
        for keep in 0..=6 {
            let room = self.sufficient();
            self.case(&example, None, keep, 0, room);
        }
        for numbers in 0..=6 * ROW {
            self.case(&example, None, 6, 0, Room::Numbers(numbers));
        }
        for place in 0..8 {
            let room = self.sufficient();
            self.case(&example, None, 6, place, room);
        }
    }

    fn corner_cases(&mut self, amounts: Amounts) {
        for (i, corner) in (0..).zip(corners::all()) {
            let room = match corner.rows {
                Some(_) => corner.room(),
                None => self.sufficient(),
            };
            let n = corner.capture.len();
            self.corner = Some(i);
            self.case(&corner.capture, None, n, corner.place, room);
            let rows = self.judge.ample(&corner.capture, 0).rows;
            if rows.is_empty() {
                continue;
            }
            self.rewrite(&corner.capture, &rows, amounts.rewritten[0]);
            self.full_at(&corner.capture, &rows, 6);
            if self.judge.ample(&corner.capture, 0).answer.verdict.is_ok() {
                for _ in 0..4 {
                    self.overrun(&corner.capture, &rows);
                }
                self.free_values(&corner.capture, &rows);
            }
        }
    }

    fn encoders_frames(&mut self, amounts: Amounts) {
        for (i, (_, stream)) in frames::kept().into_iter().enumerate() {
            if i % amounts.every_file != 0 {
                continue;
            }
            for (j, frame) in self.stream(&stream).iter().enumerate() {
                let rows = self.whole(frame);
                self.rewrite(frame, &rows, amounts.rewritten[1]);
                self.full_at(frame, &rows, 2);
                if amounts.swept && self.rng.chance(10) {
                    self.sweep(frame, rows.len() / ROW);
                }
                match (i + j) % 6 {
                    0 => self.resize(frame, 10),
                    1 => self.places(frame),
                    2 => self.overrun(frame, &rows),
                    3 => self.tight(frame, &rows),
                    4 => self.free_values(frame, &rows),
                    _ => self.other_spans(frame, &rows),
                }
            }
        }
    }

    fn drawn_frames(&mut self, amounts: Amounts) {
        let sized = 114 * amounts.of_each_size;
        for i in 0..sized + amounts.of_any_size {
            let mut style = Style::random(&mut self.rng);
            if i < sized {
                (style.fscod, style.frmsizecod) = (i % 3, i / 3 % 38);
            } else if i % 7 == 0 {
                style = Style::dense(&mut self.rng);
            } else if i % 7 == 1 {
                style.frmsizecod = self.rng.below(10);
            }
            let Some(frame) = accepted(style, &mut self.rng) else {
                continue;
            };
            let rows = self.whole(&frame);
            self.rewrite(&frame, &rows, amounts.rewritten[2]);
            self.full_at(&frame, &rows, 5);
            self.resize(&frame, 8);
            for _ in 0..4 {
                let at = self.rng.below(8 * frame.len());
                self.flip(&frame, at);
            }
            let count = rows.len() / ROW;
            match i % 20 {
                3 if i % 40 == 3 => self.rooms(&frame, count, 1),
                3 | 7 | 17 => self.rooms(&frame, count, 1 + count / 20),
                13 if frame.len() < 400 => self.truncations(&frame),
                5 if frame.len() < 400 => (0..8 * frame.len()).for_each(|at| self.flip(&frame, at)),
                1 | 9 | 11 | 19 => self.places(&frame),
                2 | 12 => self.free_values(&frame, &rows),
                4 | 14 => self.other_spans(&frame, &rows),
                _ => {}
            }
            self.overrun(&frame, &rows);
            self.overrun(&frame, &rows);
            if i % 4 == 0 {
                self.tight(&frame, &rows);
            }
            if amounts.swept && i % 2 == 0 {
                self.sweep(&frame, count);
            }
        }
    }

    pub fn run(&mut self, amounts: Amounts) {
        self.example();
        self.corner_cases(amounts);
        self.encoders_frames(amounts);
        self.drawn_frames(amounts);
    }
}
