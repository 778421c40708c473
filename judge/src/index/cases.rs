//! The generator of calls about an index, the same for the same seed and size: captures that grow in steps, cut inside frames, inside
//! headers and inside gaps, the index extended at each step and made afresh beside it; every room around the exact ones; and indexes whose
//! last entry is another one. What `again` derives must be what the judge answers, and an extended index what one made afresh is: a
//! disagreement stops the program.

use super::again::{entailed, visits, Runs, Visit};
use super::goals::{Growth, Reached};
use super::{index, Entry};
use crate::corners;
use crate::craft::{sized, small, Asked};
use crate::frames;
use crate::hex;
use crate::layout::{IndexAnswer, INDEXED, ROW};
use crate::pieces::{refuse, Pieces, SYNC};
use std::collections::BTreeSet;

/// One call and the judge's answer, with every number of the lent runs before it and after it.
pub struct Case<'a> {
    pub capture: &'a [u8],
    pub entries: usize,
    pub before: &'a Runs,
    pub answer: IndexAnswer,
    pub after: &'a Runs,
}

/// How much is made.
#[derive(Clone, Copy)]
pub struct Amounts {
    /// Captures of any pieces, and an encoder's streams with packets lost.
    pub mixed: usize,
    pub lost: usize,
}

impl Amounts {
    pub fn of_size(size: usize) -> Self {
        Amounts {
            mixed: 60 * size,
            lost: 8 * size,
        }
    }
}

/// Rows that suffice for every place of every capture that is made.
const AMPLE: usize = ROW * corners::MOST_ROWS;

pub struct Indexes<'s> {
    pieces: Pieces,
    pub captures: usize,
    pub calls: usize,
    pub extensions: usize,
    pub reached: Reached,
    sink: &'s mut dyn FnMut(&Case<'_>),
}

impl<'s> Indexes<'s> {
    pub fn new(seed: u64, sink: &'s mut dyn FnMut(&Case<'_>)) -> Self {
        Indexes {
            pieces: Pieces::new(seed ^ 0x1D3C5),
            captures: 0,
            calls: 0,
            extensions: 0,
            reached: Reached::default(),
            sink,
        }
    }

    /// One call: the room in numbers, the index in numbers with these in it from the first on, and so many entries given.
    fn call(
        &mut self,
        capture: &[u8],
        numbers: usize,
        length: usize,
        given: &[usize],
        entries: usize,
    ) -> (IndexAnswer, Vec<usize>) {
        let before = Runs::fresh(numbers, length, &given[..given.len().min(length)]);
        let mut after = before.clone();
        let Runs { room, index: lent } = &mut after;
        let answer = index(capture, room, lent, entries);
        let expected = entailed(&mut self.pieces.judge, capture, &before, entries);
        if answer != expected.answer || after != expected.runs {
            let (told, input) = (expected.answer, hex::of(capture));
            panic!("{answer:?}, {told:?} is entailed, or the runs differ: {numbers} numbers, {entries} entries of {given:?}, {input}");
        }
        self.calls += 1;
        let judge = &mut self.pieces.judge;
        self.reached
            .call(capture, &before, entries, &expected, judge);
        (self.sink)(&Case {
            capture,
            entries,
            before: &before,
            answer,
            after: &after,
        });
        let told = answer[1].saturating_mul(INDEXED).min(after.index.len());
        (answer, after.index[..told].to_vec())
    }

    /// The index extended over the whole capture, and one made afresh beside it, in the same rooms; gives the entries, the old ones where
    /// the call is refused.
    fn extended(
        &mut self,
        capture: &[u8],
        numbers: usize,
        length: usize,
        given: &[usize],
    ) -> Vec<usize> {
        let entries = given.len() / INDEXED;
        let (answer, extended) = self.call(capture, numbers, length, given, entries);
        let (afresh, made) = self.call(capture, numbers, length, &[], 0);
        let same = answer[0] == afresh[0] && (answer[0] != 0 || extended == made);
        if !same {
            let input = hex::of(capture);
            panic!("extended {answer:?}, afresh {afresh:?}, or other entries: {numbers} numbers, {given:?}, {input}");
        }
        self.extensions += 1;
        match answer[0] {
            0 => extended,
            _ => given.to_vec(),
        }
    }

    /// The capture in steps: at each end the index is extended, and made afresh, with some numbers of either room left over.
    fn grown(&mut self, capture: &[u8], ends: &[usize]) {
        let enough = enough(&visits(&mut self.pieces.judge, capture, 0));
        self.grown_within(capture, ends, enough, usize::MAX);
    }

    /// The same with so many numbers of room, and an index of at most so many entries.
    fn grown_within(&mut self, capture: &[u8], ends: &[usize], numbers: usize, most: usize) {
        self.captures += 1;
        let numbers = numbers + self.pieces.rng.below(ROW);
        let mut given: Vec<usize> = Vec::new();
        let mut before = 0;
        for end in ends.iter().copied() {
            let left_over = self.pieces.rng.below(INDEXED);
            let length = INDEXED * most.min(end / 128 + 1) + left_over;
            let extended = self.extended(&capture[..end], numbers, length, &given);
            let growth = Growth {
                capture,
                before,
                end,
                given: given.len() / INDEXED,
                entries: &extended,
            };
            self.reached.growth(&growth, &mut self.pieces.judge);
            (given, before) = (extended, end);
        }
    }

    /// Up to so many ends, in order, the last the capture's: anywhere, or within the first bytes of a frame, or at its end.
    fn ends(&mut self, capture: &[u8], most: usize) -> Vec<usize> {
        let walked = visits(&mut self.pieces.judge, capture, 0);
        let frames: Vec<Entry> = walked.iter().filter_map(|v| v.answer.ok()).collect();
        let rng = &mut self.pieces.rng;
        let mut ends = vec![capture.len()];
        for _ in 0..rng.below(most) {
            let end = match (rng.below(4), frames.is_empty()) {
                (1, false) => rng.pick(&frames)[0] + rng.below(9),
                (2, false) => {
                    let [place, length, ..] = rng.pick(&frames);
                    place + length
                }
                _ => rng.below(capture.len() + 1),
            };
            ends.push(end.min(capture.len()));
        }
        ends.sort();
        ends
    }

    /// A capture that grows; then the last step, and one afresh, in every room around the exact ones and with every other last entry.
    fn thoroughly(&mut self, capture: &[u8], random_rooms: usize) {
        let ends = self.ends(capture, 6);
        self.grown(capture, &ends);
        let walked = visits(&mut self.pieces.judge, capture, 0);
        let frames: Vec<Entry> = walked.iter().filter_map(|v| v.answer.ok()).collect();
        let all = frames.concat();
        let enough = enough(&walked);
        // Once more in steps, where some place takes too many rows, or some frame has no entry.
        let short = self.pieces.rng.pick(&rooms(&walked)) / ROW * ROW;
        self.grown_within(capture, &ends, short, usize::MAX);
        let most = self.pieces.rng.below(frames.len() + 1);
        self.grown_within(capture, &ends, enough, most);
        // Afresh, and extended from some of the frames.
        let some = self.pieces.rng.below(frames.len() + 1);
        let rooms = self.some(rooms(&walked), 12);
        let lengths = self.some((0..=all.len() + INDEXED).collect(), 12);
        for entries in BTreeSet::from([0, some, frames.len().saturating_sub(1)]) {
            let given = &all[..INDEXED * entries];
            for numbers in rooms.iter().copied() {
                self.call(capture, numbers, all.len(), given, entries);
            }
            for length in lengths.iter().copied() {
                self.call(capture, enough, length.max(given.len()), given, entries);
            }
            for _ in 0..random_rooms {
                let [numbers, length] =
                    [self.pieces.rng.pick(&rooms), self.pieces.rng.pick(&lengths)];
                self.call(capture, numbers, length, given, entries);
            }
            if entries > 0 {
                self.other_last_entries(capture, given, &rooms, all.len());
            }
        }
        self.at_one_place(capture, &walked, &all);
    }

    /// Some of the sizes, the least and the greatest always.
    fn some(&mut self, mut sizes: Vec<usize>, most: usize) -> Vec<usize> {
        sizes.sort();
        sizes.dedup();
        while sizes.len() > most {
            let at = 1 + self.pieces.rng.below(sizes.len() - 2);
            sizes.remove(at);
        }
        sizes
    }

    /// Rooms that run out at a place: that of a frame, or the one that takes the most rows; one room, or both.
    fn at_one_place(&mut self, capture: &[u8], walked: &[Visit], all: &[usize]) {
        let frames: Vec<&Visit> = walked.iter().filter(|v| v.answer.is_ok()).collect();
        let most = walked.iter().max_by_key(|visit| visit.count());
        let enough = enough(walked);
        let any = (!frames.is_empty()).then(|| self.pieces.rng.pick(&frames));
        for visit in [most, any].into_iter().flatten() {
            let before = frames.iter().filter(|f| f.place < visit.place).count();
            let numbers = ROW * visit.count().saturating_sub(1) + self.pieces.rng.below(ROW);
            for entries in BTreeSet::from([0, before.min(1), before]) {
                let given = &all[..INDEXED * entries];
                for length in [given.len(), INDEXED * before, all.len()] {
                    for numbers in [numbers, enough] {
                        self.call(capture, numbers, length.max(given.len()), given, entries);
                    }
                }
            }
        }
    }

    /// The last entry with each number changed in each way; more entries than there are; in rooms that suffice, and in others.
    fn other_last_entries(
        &mut self,
        capture: &[u8],
        given: &[usize],
        rooms: &[usize],
        length: usize,
    ) {
        let entries = given.len() / INDEXED;
        let last = given.len() - INDEXED;
        let enough = rooms[rooms.len() - 1];
        for at in 0..INDEXED {
            let number = given[last + at];
            let changed = [
                number + 1,
                number.wrapping_sub(1),
                0,
                usize::MAX,
                number ^ 1 << 32,
            ];
            for to in changed.into_iter().filter(|to| *to != number) {
                let mut other = given.to_vec();
                other[last + at] = to;
                let any = self.pieces.rng.pick(rooms);
                let numbers = self.pieces.rng.pick(&[enough, enough, any]);
                let length = self.pieces.rng.pick(&[length, length, given.len()]);
                self.call(capture, numbers, length, &other, entries);
            }
        }
        let mut elsewhere = given.to_vec();
        elsewhere[last] = self.pieces.rng.below(capture.len() + 2);
        self.call(capture, enough, length, &elsewhere, entries);
        // The entries before the last are not looked at.
        if entries > 1 {
            let mut earlier = given.to_vec();
            earlier[self.pieces.rng.below(last)] ^= 1;
            let (answer, _) = self.call(capture, enough, length, &earlier, entries);
            assert_eq!(answer[0], 0, "earlier entries are not looked at");
            let what = "another number in an entry before the last";
            self.reached.add(what);
        }
        for more in [entries + 1, usize::MAX, usize::MAX / INDEXED + 1, 1 << 62] {
            let left_over = self.pieces.rng.below(INDEXED);
            let numbers = self.pieces.rng.pick(rooms);
            self.call(capture, numbers, given.len() + left_over, given, more);
        }
    }

    /// All captures of up to six bytes of the two of a sync word and another one, in no room and in some.
    fn shortest(&mut self) {
        let mut captures: Vec<Vec<u8>> = vec![Vec::new()];
        let mut from = 0;
        for _ in 0..6 {
            let to = captures.len();
            for at in from..to {
                for byte in [SYNC[0], SYNC[1], 0] {
                    captures.push([&captures[at][..], &[byte]].concat());
                }
            }
            from = to;
        }
        for (i, capture) in captures.iter().enumerate() {
            self.captures += 1;
            for numbers in [0, ROW - 1, ROW, 3 * ROW, 5 * ROW + i % ROW] {
                self.call(capture, numbers, i % 7, &[], 0);
            }
            self.call(capture, AMPLE, 2 * INDEXED, &[0, 128, 1, 0, 0], 1);
        }
    }

    /// Frames with few bytes before, between and after them, cut at every byte.
    fn cut_anywhere(&mut self) {
        let frame = small(&|a: &Asked| (a.name == "dialnorm").then_some(27));
        let few: [&[u8]; 8] = [
            &[],
            &SYNC[..1],
            &SYNC,
            &[0],
            &[0x0B, 0x77, 0x0B],
            &[0, 0, 0, 0, 0, 0, 0],
            &[0x0B, 0x77, 0, 0, 0],
            &[0x0B, 0x77, 0, 0, 0, 0x40],
        ];
        for between in few {
            let other = self.pieces.short_frame();
            let capture = [between, &frame, between, &other, between].concat();
            for end in 0..capture.len() {
                self.grown(&capture, &[end, capture.len()]);
            }
            let every: Vec<usize> = (0..=capture.len()).collect();
            self.grown(&capture, &every);
        }
    }

    /// Every mode, with dialnorms of every value; two programmes with everything between their dialnorms, and with nothing.
    fn levels(&mut self) {
        let frame = |acmod: u32, first: u32, second: u32, more: u32| {
            small(&|a: &Asked| match a.name {
                "acmod" => Some(acmod),
                "dialnorm" => Some(first),
                "dialnorm2" => Some(second),
                "compre" | "langcode" | "audprodie" => Some(more),
                "compr" | "langcod" => Some(0xA5),
                _ => None,
            })
        };
        for more in [0, 1] {
            let frames: Vec<Vec<u8>> = (0..32)
                .map(|level| frame(level % 8, level, 31 - level, more))
                .collect();
            let capture = frames.concat();
            let ends: Vec<usize> = (0..=32).map(|frames| 128 * frames).collect();
            self.grown(&capture, &ends);
            let of_two: Vec<Vec<u8>> = (0..32).map(|l| frame(0, 31 - l, l, more)).collect();
            self.grown(&of_two.concat(), &ends);
            self.thoroughly(&of_two[..3].concat(), 4);
        }
    }

    /// Every refused input with a frame before and after it, and at the capture's end.
    fn refused_ones(&mut self) {
        let refused: Vec<Vec<u8>> = self.pieces.refused.values().flatten().cloned().collect();
        for (i, bytes) in refused.iter().enumerate() {
            let (before, after) = (self.pieces.short_frame(), self.pieces.short_frame());
            let capture = [&before[..], bytes, &after].concat();
            match i % 10 {
                0 => self.thoroughly(&capture, 4),
                _ => {
                    let ends = self.ends(&capture, 4);
                    self.grown(&capture, &ends);
                }
            }
            // An index that says there was a frame where none is.
            let mut given = vec![128, bytes.len(), 1, 0, 0];
            self.call(&capture, AMPLE, 4 * INDEXED, &given, 1);
            given[0] = 0;
            self.call(bytes, AMPLE, INDEXED, &given, 1);
        }
        // With rows for the frames and too few for the place that is refused.
        let frame = small(&|_| None);
        for _ in 0..3 {
            let late = self.pieces.refused_late();
            self.thoroughly(&[&frame[..], &frame, &late, &frame].concat(), 8);
            self.thoroughly(&[&frame[..], &[9], &late, &frame].concat(), 8);
            self.thoroughly(&[&frame[..], &frame, &[9], &late].concat(), 8);
            self.thoroughly(&[&late[..], &frame].concat(), 8);
        }
    }

    /// Frames in frames: whole, with the outer one refused, and cut so that the outer one may still come.
    fn nested_ones(&mut self) {
        for _ in 0..6 {
            let (frame, place) = self.pieces.nested();
            let inner_end = place + 128;
            self.thoroughly(&frame, 8);
            self.grown(&frame, &[place, inner_end, inner_end + 1, frame.len()]);
            // The inner one as the last entry: parsing gives it, so the walk goes on from its end.
            let inner = Visit::at(&mut self.pieces.judge, &frame, place);
            let inner = inner.answer.expect("accepted");
            self.call(&frame, AMPLE, 3 * INDEXED, &inner, 1);
            self.reached.add("a frame inside a frame as the last entry");
            let mut refused = frame;
            refuse(&mut refused);
            self.thoroughly(&refused, 8);
        }
    }

    /// The largest frames, those with the most rows, gaps longer than any frame, bytes that are all sync words, random ones.
    fn large(&mut self) {
        let largest = sized(2, 37, &|_| None);
        let corners = corners::all();
        let most = corners.iter().find(|corner| corner.name == "most-rows");
        let most = &most.expect("a corner case").capture;
        let frame = self.pieces.short_frame();
        self.thoroughly(&[&frame[..], &[7; 3], &largest, &frame].concat(), 8);
        self.thoroughly(&[&frame[..], most, &[0], &frame].concat(), 8);
        let capture = [&frame[..], &largest, &frame].concat();
        self.grown(&capture, &[128 + 3839, 128 + 3840, capture.len()]);
        let gap = self.pieces.rng.bytes(4000);
        self.thoroughly(&[&frame[..], &gap, &frame].concat(), 4);
        for length in [300, 301] {
            let all = &SYNC.repeat(200)[..length];
            self.thoroughly(all, 8);
            self.thoroughly(&[all, &frame, all].concat(), 8);
            let random = self.pieces.rng.bytes(length);
            self.thoroughly(&random, 8);
        }
    }

    fn mixed(&mut self) {
        let pieces = 1 + self.pieces.rng.below(8);
        let pieces: Vec<Vec<u8>> = (0..pieces).map(|_| self.pieces.piece()).collect();
        self.thoroughly(&pieces.concat(), 8);
    }

    /// Some frames of an encoder's stream, in packets of one size, of which some are lost; they come in steps of any size.
    fn lost(&mut self, stream: &[u8]) {
        let kept = stream.len().min(6000 + self.pieces.rng.below(2000));
        let size = self.pieces.rng.pick(&[100, 184, 188, 500, 1316]);
        let packets = stream[..kept].chunks(size);
        let kept: Vec<&[u8]> = packets.filter(|_| !self.pieces.rng.chance(15)).collect();
        let capture = kept.concat();
        let ends = self.ends(&capture, 30);
        self.grown(&capture, &ends);
        self.thoroughly(&capture, 8);
        self.reached.add("packets lost");
    }

    /// Captures of any pieces alone.
    pub fn run_mixed(&mut self, captures: usize) {
        self.pieces.gather();
        for _ in 0..captures {
            self.mixed();
        }
    }

    pub fn run(&mut self, amounts: Amounts) {
        self.pieces.gather();
        self.shortest();
        self.cut_anywhere();
        self.levels();
        self.refused_ones();
        self.nested_ones();
        self.large();
        for _ in 0..amounts.mixed {
            self.mixed();
        }
        let kept = frames::kept().into_iter();
        let streams: Vec<_> = kept
            .filter(|(name, _)| !name.starts_with("refused"))
            .collect();
        for _ in 0..amounts.lost {
            let at = self.pieces.rng.below(streams.len());
            self.lost(&streams[at].1);
        }
    }
}

/// The numbers that the rows of every place take.
fn enough(walked: &[Visit]) -> usize {
    ROW * walked.iter().map(Visit::count).max().unwrap_or(0)
}

/// Lengths of the room around the ends of the rows in it.
fn rooms(walked: &[Visit]) -> Vec<usize> {
    let counts: BTreeSet<usize> = walked.iter().map(Visit::count).collect();
    let mut sizes = vec![0, ROW - 1];
    for rows in counts.into_iter().filter(|rows| *rows > 0) {
        let numbers = ROW * rows;
        sizes.extend([numbers - 1, numbers, numbers + ROW - 1]);
    }
    sizes
}
