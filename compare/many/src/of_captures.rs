//! Operations on whole captures and on bursts: burst_read, salvage and index.

use crate::frames::{any_large, tiny, Frames, FRAME_WAYS, LIGHT, MOST_ROWS};
use crate::lent::Lent;
use crate::of_frames::untouched_byte;
use crate::operation::{Held, Operation};
use crate::raw;
use judge::agree::untouched;
use judge::burst::{self, BURST, WORDS};
use judge::hex;
use judge::index;
use judge::layout::{ENTRY, INDEXED, ROW};
use judge::rng::Rng;
use judge::salvage;

/// Of 100 frames so many are drawn anew.
const RENEWED: usize = 5;

pub struct Read {
    frames: Frames,
    burst: Vec<u8>,
    room: Lent<i32>,
    out: Lent<u8>,
}

impl Read {
    pub fn new(rng: &mut Rng) -> Self {
        Read {
            frames: Frames::new(rng, RENEWED, tiny, any_large),
            burst: vec![0; BURST],
            room: Lent::new(ROW * MOST_ROWS, untouched),
            out: Lent::new(4000, untouched_byte),
        }
    }
}

/// Faults of a burst, after the ways of its frame.
const FAULTS: usize = 6;

/// Bursts of another length, with other words, and with frames that are refused early.
const READ_LIGHT: [usize; 6] = [
    FRAME_WAYS,
    FRAME_WAYS + 1,
    LIGHT[0],
    LIGHT[1],
    LIGHT[2],
    LIGHT[3],
];

impl Operation for Read {
    fn ways(&self) -> usize {
        FRAME_WAYS + FAULTS
    }

    fn light(&self) -> &[usize] {
        &READ_LIGHT
    }

    fn call(&mut self, rng: &mut Rng, way: usize) -> Held {
        let Read {
            frames,
            burst,
            room,
            out,
        } = self;
        frames.make(rng, if way < FRAME_WAYS { way } else { 0 });
        let frame = frames.capture.get(frames.place..).unwrap_or(&[]);
        let bsmod = frame.get(5).map_or(0, |byte| byte & 7);
        let length = frame.len();
        burst.clear();
        burst.extend([0xF8, 0x72, 0x4E, 0x1F, bsmod, 1]);
        burst.extend((8 * length as u16).to_be_bytes());
        burst.extend(frame);
        burst.resize(BURST, 0);
        let mut bytes = length + rng.below(4);
        match way.checked_sub(FRAME_WAYS) {
            None => {}
            Some(0) => match rng.chance(50) {
                true => burst.truncate(rng.below(BURST)),
                false => burst.push(0),
            },
            Some(1) => {
                let at = rng.pick(&[0, 1, 2, 3, 4, 5]);
                burst[at] ^= 1 << rng.below(8);
            }
            Some(2) => burst[6 + rng.below(2)] ^= 1 << rng.below(8),
            Some(3) => {
                let at = WORDS + length + rng.below(BURST - WORDS - length);
                burst[rng.pick(&[at, WORDS + length, BURST - 1])] = 1 + rng.below(255) as u8;
            }
            Some(4) => burst[4] = rng.below(8) as u8,
            _ => bytes = rng.below(length),
        }
        let (judged, lent) = room.lend(frames.numbers);
        let (judged_out, lent_out) = out.lend(bytes.min(4000));
        let judge = burst::read(burst, judged, judged_out);
        let (told, _) = raw::burst_read(burst, lent, lent_out);
        let same = told == judge && room.same() && out.same();
        Held::new(judge[0] as usize, same, || {
            format!(
                "{}\n  {} numbers of room, {bytes} bytes of output, first that differs {:?}\n  judge {judge:?}\n  port {told:?}",
                hex::of(burst),
                frames.numbers,
                (room.first(), out.first())
            )
        })
    }
}

/// What stands between the frames of a capture.
fn between(rng: &mut Rng, capture: &mut Vec<u8>) {
    let length = rng.below(6);
    match rng.below(6) {
        0 => capture.extend(rng.bytes(length)),
        1 => capture.extend([0x0B, 0x77]),
        2 => capture.extend([0x0B, 0x77, 0, 0, rng.draw() as u8, rng.draw() as u8, 0x40]),
        3 => capture.extend([0x0B].repeat(length)),
        _ => {}
    }
}

/// Captures of up to three small frames, some of them damaged.
struct Captures {
    frames: Frames,
    capture: Vec<u8>,
    /// The frames of the capture as far as none is damaged, and their bytes.
    count: usize,
    bytes: usize,
}

impl Captures {
    fn new(rng: &mut Rng) -> Self {
        Captures {
            frames: Frames::new(rng, RENEWED, tiny, any_large),
            capture: Vec::new(),
            count: 0,
            bytes: 0,
        }
    }

    fn make(&mut self, rng: &mut Rng, damaged: bool) {
        self.capture.clear();
        (self.count, self.bytes) = (
            rng.pick(&[0, 0, 0, 0, 0, 0, 0, 0, 0, 0, 1, 1, 1, 1, 2, 3]),
            0,
        );
        for _ in 0..self.count {
            between(rng, &mut self.capture);
            let frame = self.frames.any(rng);
            self.bytes += frame.len();
            self.capture.extend(frame);
        }
        between(rng, &mut self.capture);
        if damaged && !self.capture.is_empty() {
            let at = rng.below(self.capture.len());
            match rng.below(4) {
                0 => self.capture.truncate(at),
                1 => {
                    self.capture.remove(at);
                }
                2 => self.capture[at] ^= 1 << rng.below(8),
                _ => {
                    let end = (at + rng.below(60)).min(self.capture.len());
                    self.capture.drain(at..end);
                }
            }
        }
    }
}

pub struct Salvage {
    captures: Captures,
    room: Lent<i32>,
    list: Lent<usize>,
    out: Lent<u8>,
}

/// The rows that are lent where all small frames are to fit.
const ROWS: usize = 900;

impl Salvage {
    pub fn new(rng: &mut Rng) -> Self {
        Salvage {
            captures: Captures::new(rng),
            room: Lent::new(ROW * MOST_ROWS, untouched),
            list: Lent::new(64, |i| 1_000_000 + i),
            out: Lent::new(2000, untouched_byte),
        }
    }
}

impl Operation for Salvage {
    fn ways(&self) -> usize {
        6
    }

    fn call(&mut self, rng: &mut Rng, way: usize) -> Held {
        let Salvage {
            captures,
            room,
            list,
            out,
        } = self;
        captures.make(rng, way == 1 || way == 5);
        let (mut numbers, mut listed, mut bytes) = (ROW * ROWS, 60, captures.bytes + 8);
        match way {
            2 => numbers = rng.below(ROW * 300),
            3 => listed = rng.below(ENTRY * (2 * captures.count + 1)),
            4 => bytes = rng.below(captures.bytes + 1),
            5 => {
                numbers = rng.pick(&[numbers, rng.clone().below(ROW * 300)]);
                listed = rng.below(ENTRY * (2 * captures.count + 2));
                bytes = rng.below(captures.bytes + 2);
            }
            _ => {}
        }
        let capture = &captures.capture;
        let (judged, lent) = room.lend(numbers);
        let (judged_list, lent_list) = list.lend(listed);
        let (judged_out, lent_out) = out.lend(bytes);
        let judge = salvage::salvage(capture, judged, judged_list, judged_out);
        let (told, ..) = raw::salvage(capture, lent, lent_list, lent_out);
        let same = told == judge && room.same() && list.same() && out.same();
        Held::new(judge[0], same, || {
            format!(
                "{}\n  lent {numbers}, {listed}, {bytes}, first that differs {:?}\n  judge {judge:?}\n  port {told:?}",
                hex::of(capture),
                (room.first(), list.first(), out.first())
            )
        })
    }
}

pub struct Index {
    captures: Captures,
    room: Lent<i32>,
    index: Lent<usize>,
    scratch: Vec<i32>,
}

impl Index {
    pub fn new(rng: &mut Rng) -> Self {
        Index {
            captures: Captures::new(rng),
            room: Lent::new(ROW * MOST_ROWS, untouched),
            index: Lent::new(64, |i| 1_000_000 + i),
            scratch: vec![0; ROW * MOST_ROWS],
        }
    }
}

impl Operation for Index {
    fn ways(&self) -> usize {
        7
    }

    fn call(&mut self, rng: &mut Rng, way: usize) -> Held {
        let Index {
            captures,
            room,
            index,
            scratch,
        } = self;
        captures.make(rng, way == 1);
        let capture = &captures.capture;
        let mut these = [0; 7 * INDEXED];
        these
            .iter_mut()
            .enumerate()
            .for_each(|(i, n)| *n = 1_000_000 + i);
        let (mut numbers, mut length, mut entries) =
            (ROW * ROWS, 6 * INDEXED + rng.below(INDEXED), 0);
        if way >= 4 || rng.chance(40) {
            // An index of a beginning of the capture, which is then extended.
            let begun = rng.below(capture.len() + 1);
            let [_, held] = index::index(&capture[..begun], scratch, &mut these, 0);
            entries = held;
        }
        match way {
            2 => numbers = rng.below(ROW * 300),
            3 => length = rng.below(INDEXED * (captures.count + 1)),
            4 if entries > 0 => {
                let number = &mut these[INDEXED * (entries - 1) + rng.below(INDEXED)];
                *number = rng.pick(&[
                    *number ^ 1,
                    *number + 1,
                    usize::MAX,
                    0,
                    rng.clone().below(1000),
                ]);
            }
            5 => entries = rng.pick(&[entries + 1, entries + 7, usize::MAX, usize::MAX / 5]),
            6 => {
                length = rng.below(INDEXED * (captures.count + 2));
                numbers = rng.below(ROW * 500);
            }
            _ => {}
        }
        let (judged, lent) = room.lend(numbers);
        let (judged_index, lent_index) = index.lend_these(&these[..length.min(these.len())]);
        let judge = index::index(capture, judged, judged_index, entries);
        let told = raw::index(capture, lent, lent_index, entries);
        let same = told == judge && room.same() && index.same();
        Held::new(judge[0], same, || {
            format!(
                "{}\n  {numbers} numbers of room, {entries} entries of {:?}, first that differs {:?}\n  judge {judge:?}\n  port {told:?}",
                hex::of(capture),
                &these[..length.min(these.len())],
                (room.first(), index.first())
            )
        })
    }
}
