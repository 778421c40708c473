//! The generator of captures to be salvaged, the same for the same seed and size: short ones, all of them over a few bytes; frames with
//! bytes before, between and after them; frames cut at every byte; frames in frames; every refusal in a gap; an encoder's streams with
//! packets lost; and any of these together. Each is salvaged in rooms around the exact ones. What `again` derives must be what the judge
//! answers: a disagreement stops the program.

use super::again::{Lent, Runs, Visit, Walk};
use super::goals::Reached;
use super::salvage;
use crate::corners;
use crate::craft::{sized, small};
use crate::frames;
use crate::hex;
use crate::layout::{SalvageAnswer, ENTRY, ROW};
use crate::pieces::{refuse, Pieces, SYNC};
use std::collections::BTreeSet;

/// One call and the judge's answer, with every number and byte of the lent runs after it.
pub struct Case<'a> {
    pub capture: &'a [u8],
    pub answer: SalvageAnswer,
    pub runs: &'a Runs,
}

/// How much is made.
#[derive(Clone, Copy)]
pub struct Amounts {
    /// Captures of any pieces, and an encoder's streams with packets lost.
    pub mixed: usize,
    pub lost: usize,
}

impl Amounts {
    pub fn of_size(size: usize) -> Self {
        Amounts {
            mixed: 60 * size,
            lost: 8 * size,
        }
    }
}

pub struct Salvages<'s> {
    pieces: Pieces,
    pub captures: usize,
    pub calls: usize,
    pub reached: Reached,
    sink: &'s mut dyn FnMut(&Case<'_>),
}

impl<'s> Salvages<'s> {
    pub fn new(seed: u64, sink: &'s mut dyn FnMut(&Case<'_>)) -> Self {
        Salvages {
            pieces: Pieces::new(seed ^ 0x5A17A6E),
            captures: 0,
            calls: 0,
            reached: Reached::default(),
            sink,
        }
    }

    /// One call.
    fn call(&mut self, walk: &Walk<'_>, lent: Lent) {
        let capture = walk.capture;
        let mut runs = Runs::fresh(lent);
        let Runs { room, list, out } = &mut runs;
        let answer = salvage(capture, room, list, out);
        let (stop, expected, left) = walk.entailed(lent);
        if answer != expected || runs != left {
            let input = hex::of(capture);
            panic!("{answer:?}, {expected:?} is entailed, or the runs differ: {lent:?}, {input}");
        }
        self.calls += 1;
        self.reached.call(walk, lent, stop);
        (self.sink)(&Case {
            capture,
            answer,
            runs: &runs,
        });
    }

    /// A capture's walk with ample rooms.
    fn walk<'a>(&mut self, capture: &'a [u8]) -> Walk<'a> {
        let walk = Walk::new(&mut self.pieces.judge, capture);
        self.captures += 1;
        self.reached.capture(&walk, &mut self.pieces.judge);
        walk
    }

    /// In rooms that just suffice, with a few numbers and bytes left over.
    fn sufficient(&mut self, walk: &Walk<'_>) {
        let need = walk.need();
        let lent = Lent {
            numbers: need.numbers + self.pieces.rng.below(ROW),
            list: need.list + self.pieces.rng.below(ENTRY),
            bytes: need.bytes + self.pieces.rng.below(2),
        };
        self.call(walk, lent);
    }

    fn once(&mut self, capture: &[u8]) {
        let walk = self.walk(capture);
        self.sufficient(&walk);
    }

    /// In each room around the exact ones, the other two just sufficing; in rooms that are all drawn from those; and in rooms that run out
    /// at one place.
    fn thoroughly(&mut self, capture: &[u8], random_rooms: usize) {
        let walk = self.walk(capture);
        self.sufficient(&walk);
        let need = walk.need();
        let lists = self.some((0..=need.list + ENTRY).collect(), 24);
        let outputs = self.some(outputs(&walk), 16);
        let rooms = self.some(rooms(&walk), 16);
        for list in lists.iter().copied() {
            self.call(&walk, Lent { list, ..need });
        }
        for bytes in outputs.iter().copied() {
            self.call(&walk, Lent { bytes, ..need });
        }
        for numbers in rooms.iter().copied() {
            self.call(&walk, Lent { numbers, ..need });
        }
        for _ in 0..random_rooms {
            let lent = Lent {
                numbers: self.pieces.rng.pick(&rooms),
                list: self.pieces.rng.pick(&lists),
                bytes: self.pieces.rng.pick(&outputs),
            };
            self.call(&walk, lent);
        }
        self.at_one_place(&walk);
    }

    /// Some of the sizes, the least and the greatest always.
    fn some(&mut self, mut sizes: Vec<usize>, most: usize) -> Vec<usize> {
        sizes.sort();
        sizes.dedup();
        while sizes.len() > most {
            let at = 1 + self.pieces.rng.below(sizes.len() - 2);
            sizes.remove(at);
        }
        sizes
    }

    /// Rooms of which one, two or all three run out at one place, or at the gap before it: at any frame, and where the most rows are
    /// needed.
    fn at_one_place(&mut self, walk: &Walk<'_>) {
        let frame = (!walk.frames.is_empty()).then(|| self.pieces.rng.pick(&walk.frames));
        let most = walk.visits.iter().max_by_key(|visit| visit.count());
        let places = [frame.map(|f| f.place), most.map(|visit| visit.place)];
        for place in places.into_iter().flatten() {
            let visit = walk.visits.iter().find(|visit| visit.place == place);
            let rows = visit.expect("a place of the walk").count();
            let entries = walk.entries_to(place).len();
            let frames = walk.frames.iter().filter(|f| f.place < place);
            let written: usize = frames.map(|f| f.length).sum();
            for short in 1..8 {
                for entries in [entries.saturating_sub(1), entries] {
                    let mut lent = walk.need();
                    if short & 1 != 0 {
                        lent.numbers = ROW * rows.saturating_sub(1) + self.pieces.rng.below(ROW);
                    }
                    if short & 2 != 0 {
                        lent.list = ENTRY * entries + self.pieces.rng.below(ENTRY);
                    }
                    if short & 4 != 0 {
                        lent.bytes = written + self.pieces.rng.below(128);
                    }
                    self.call(walk, lent);
                }
            }
        }
    }

    /// All captures of up to seven bytes, of the two of a sync word and another one.
    fn shortest(&mut self) {
        let mut captures: Vec<Vec<u8>> = vec![Vec::new()];
        let mut from = 0;
        for _ in 0..7 {
            let to = captures.len();
            for at in from..to {
                for byte in [SYNC[0], SYNC[1], 0] {
                    captures.push([&captures[at][..], &[byte]].concat());
                }
            }
            from = to;
        }
        for (i, capture) in captures.iter().enumerate() {
            let walk = self.walk(capture);
            let mut lents = Vec::new();
            for list in [0, ENTRY - 1, ENTRY, ENTRY + 1] {
                for numbers in [0, ROW - 1, ROW, 3 * ROW, 5 * ROW + i % ROW] {
                    let bytes = i % 2;
                    lents.push(Lent {
                        numbers,
                        list,
                        bytes,
                    });
                }
            }
            if i >= 400 {
                lents = vec![self.pieces.rng.pick(&lents)];
            }
            for lent in lents {
                self.call(&walk, lent);
            }
        }
    }

    /// Frames with few bytes before, between and after them, those of a sync word among them.
    fn surrounded(&mut self) {
        let frame = small(&|_| None);
        let few: [&[u8]; 10] = [
            &[],
            &SYNC[..1],
            &SYNC[1..],
            &SYNC,
            &[0],
            &[0x0B, 0x0B],
            &[0x0B, 0x77, 0x0B],
            &[0, 0, 0, 0],
            &[0x0B, 0x77, 0, 0, 0],
            &[0x0B, 0x77, 0, 0, 0, 0x40],
        ];
        for before in few {
            for after in few {
                self.thoroughly(&[before, &frame, after].concat(), 2);
            }
        }
        for between in few {
            self.thoroughly(&[&frame, between, &frame, &frame].concat(), 8);
        }
    }

    /// Two frames, one of them cut at every byte.
    fn cut_anywhere(&mut self) {
        let (first, second) = (self.pieces.short_frame(), self.pieces.short_frame());
        for at in 0..=128 {
            self.once(&[&first[..at], &second].concat());
            self.once(&[&first[at..], &second].concat());
            self.once(&[&first[..], &second[..at]].concat());
        }
    }

    /// Every refused input with a frame before and after it, and at the capture's end.
    fn refused_ones(&mut self) {
        let refused: Vec<Vec<u8>> = self.pieces.refused.values().flatten().cloned().collect();
        for (i, bytes) in refused.iter().enumerate() {
            let (before, after) = (self.pieces.short_frame(), self.pieces.short_frame());
            let capture = [&before[..], bytes, &after].concat();
            match i % 10 {
                0 => self.thoroughly(&capture, 4),
                _ => self.once(&capture),
            }
            self.once(&[&before[..], bytes].concat());
        }
        // With rows for the frames and too few for the place that is refused.
        let frame = small(&|_| None);
        for _ in 0..3 {
            let late = self.pieces.refused_late();
            self.thoroughly(&[&frame[..], &late, &frame].concat(), 8);
            self.thoroughly(&[&frame[..], &[9], &late, &frame].concat(), 8);
            self.thoroughly(&[&frame[..], &[9], &late].concat(), 8);
        }
    }

    /// Frames in frames: whole, with the outer one refused, and cut.
    fn nested_ones(&mut self) {
        for _ in 0..6 {
            let (frame, place) = self.pieces.nested();
            self.thoroughly(&frame, 8);
            self.once(&frame[..place + 128]);
            self.once(&frame[1..]);
            let mut refused = frame;
            refuse(&mut refused);
            self.thoroughly(&refused, 8);
        }
    }

    /// The largest frames, those with the most rows, gaps longer than any frame, bytes that are all sync words, random ones.
    fn large(&mut self) {
        let largest = sized(2, 37, &|_| None);
        let corners = corners::all();
        let most = corners.iter().find(|corner| corner.name == "most-rows");
        let most = &most.expect("a corner case").capture;
        let frame = self.pieces.short_frame();
        self.thoroughly(&[&frame[..], &[7; 3], &largest, &frame].concat(), 8);
        self.thoroughly(&[&frame[..], most, &[0], &frame].concat(), 8);
        self.once(&[&frame[..], &largest[..3839]].concat());
        let gap = self.pieces.rng.bytes(4000);
        self.thoroughly(&[&frame[..], &gap, &frame].concat(), 4);
        for length in [300, 301] {
            let all = &SYNC.repeat(200)[..length];
            self.thoroughly(all, 8);
            self.thoroughly(&all[1..], 8);
            self.thoroughly(&[all, &frame, all].concat(), 8);
            self.reached.add("only sync words");
            let random = self.pieces.rng.bytes(length);
            self.thoroughly(&random, 8);
            self.reached.add("random bytes");
        }
    }

    fn mixed(&mut self) {
        let pieces = 1 + self.pieces.rng.below(8);
        let pieces: Vec<Vec<u8>> = (0..pieces).map(|_| self.pieces.piece()).collect();
        self.thoroughly(&pieces.concat(), 16);
    }

    /// Some frames of an encoder's stream, in packets of one size, of which some are lost.
    fn lost(&mut self, stream: &[u8]) {
        let kept = stream.len().min(6000 + self.pieces.rng.below(2000));
        let size = self.pieces.rng.pick(&[100, 184, 188, 500, 1316]);
        let mut capture = stream[..kept].to_vec();
        for at in (0..kept.div_ceil(size)).rev() {
            if self.pieces.rng.chance(15) {
                let end = capture.len().min(size * (at + 1));
                capture.drain(size * at..end);
                self.reached.add("packets lost");
            }
        }
        self.thoroughly(&capture, 16);
    }

    /// Captures of any pieces alone.
    pub fn run_mixed(&mut self, captures: usize) {
        self.pieces.gather();
        for _ in 0..captures {
            self.mixed();
        }
    }

    pub fn run(&mut self, amounts: Amounts) {
        self.pieces.gather();
        self.shortest();
        self.surrounded();
        self.cut_anywhere();
        self.refused_ones();
        self.nested_ones();
        self.large();
        for _ in 0..amounts.mixed {
            self.mixed();
        }
        let kept = frames::kept().into_iter();
        let streams: Vec<_> = kept
            .filter(|(name, _)| !name.starts_with("refused"))
            .collect();
        for _ in 0..amounts.lost {
            let at = self.pieces.rng.below(streams.len());
            self.lost(&streams[at].1);
        }
    }
}

/// Lengths of the output around the ends of the frames in it.
fn outputs(walk: &Walk<'_>) -> Vec<usize> {
    let mut sizes = vec![0];
    let mut bytes = 0;
    for frame in &walk.frames {
        bytes += frame.length;
        sizes.extend([bytes - 1, bytes, bytes + 1]);
    }
    sizes
}

/// Lengths of the room around the ends of the rows in it.
fn rooms(walk: &Walk<'_>) -> Vec<usize> {
    let counts: BTreeSet<usize> = walk.visits.iter().map(Visit::count).collect();
    let mut sizes = vec![0, ROW - 1];
    for rows in counts.into_iter().filter(|rows| *rows > 0) {
        let numbers = ROW * rows;
        sizes.extend([numbers - 1, numbers, numbers + ROW - 1, numbers + ROW]);
    }
    sizes
}
