//! Operations on the frame at a place of a capture: parse, header, blocks, profile, burst_write and correct.

use crate::frames::{any_large, any_small, tiny, Draws, Frames, FRAME_WAYS, LIGHT, MOST_ROWS};
use crate::layout;
use crate::lent::Lent;
use crate::operation::{Held, Operation};
use crate::raw;
use judge::agree::untouched;
use judge::apart;
use judge::burst::{self, BURST};
use judge::cut;
use judge::draw::Style;
use judge::hex;
use judge::layout::{header_at, HeaderAnswer, HEADER_ANSWER, ROW};
use judge::level;
use judge::names::number;
use judge::profile;
use judge::rng::Rng;

/// A frame, and room for its rows.
struct Framed {
    frames: Frames,
    room: Lent<i32>,
}

impl Framed {
    fn new(rng: &mut Rng, renewed: usize, small: Draws, large: Draws) -> Self {
        Framed {
            frames: Frames::new(rng, renewed, small, large),
            room: Lent::new(ROW * MOST_ROWS, untouched),
        }
    }

    fn show(&self, answers: String) -> String {
        let Frames {
            capture,
            place,
            numbers,
            ..
        } = &self.frames;
        let first = self.room.first();
        format!(
            "place {place} of {}\n  room for {numbers} numbers, of which first differs {first:?}\n  {answers}",
            hex::of(capture)
        )
    }
}

/// Of 100 whole frames of the operations but `parse` so many are drawn anew.
const RENEWED: usize = 5;

/// A set of numbers of 64 bits, of which it holds 28: what it counts is at most too few.
struct Different {
    met: Vec<u64>,
    count: usize,
}

impl Different {
    fn new() -> Self {
        Different {
            met: vec![0; 1 << 22],
            count: 0,
        }
    }

    fn meet(&mut self, bytes: &[u8]) {
        let mix = |number: u64, chunk: &[u8]| {
            let mut eight = [0; 8];
            eight[..chunk.len()].copy_from_slice(chunk);
            Rng(number ^ u64::from_le_bytes(eight)).draw()
        };
        let number = bytes.chunks(8).fold(bytes.len() as u64, mix) >> 36;
        let (word, bit) = ((number / 64) as usize, 1 << (number % 64));
        self.count += usize::from(self.met[word] & bit == 0);
        self.met[word] |= bit;
    }
}

pub struct Parse {
    framed: Framed,
    /// Accepted frames, by their bytes up to the end of the audio.
    different: Different,
}

impl Parse {
    pub fn new(rng: &mut Rng) -> Self {
        Parse {
            framed: Framed::new(rng, 0, any_small, any_large),
            different: Different::new(),
        }
    }

    fn held(&mut self, told: &layout::Answer, answer: &cut::Answer) -> Held {
        let Framed { frames, room } = &self.framed;
        let judge = answer.numbers();
        if answer.verdict.is_ok() {
            let frame = &frames.capture[frames.place..];
            self.different.meet(&frame[..answer.bit.div_ceil(8)]);
        }
        let same = *told == judge && room.same();
        Held::new(answer.number() as usize, same, || {
            self.framed
                .show(format!("judge {judge:?}\n  port {told:?}"))
        })
    }

    /// The judge's own run draws the frame: see `tried`.
    fn drawn(&mut self, rng: &mut Rng) -> Held {
        let Framed { frames, room } = &mut self.framed;
        let (judged, lent) = room.lend(frames.begin(rng));
        let answer = frames.tried(rng, judged);
        let (told, _) = raw::parse(&frames.capture, 0, lent);
        if answer.verdict.is_ok() {
            frames.keep(&room.judge()[..ROW * answer.rows]);
        }
        self.held(&told, &answer)
    }
}

impl Operation for Parse {
    fn ways(&self) -> usize {
        FRAME_WAYS
    }

    /// Many frames are to be accepted.
    fn plain(&self) -> usize {
        70
    }

    fn call(&mut self, rng: &mut Rng, way: usize) -> Held {
        // Every twentieth of them is parsed from its bytes all the same.
        if way == 0 && !rng.chance(5) {
            return self.drawn(rng);
        }
        let Framed { frames, room } = &mut self.framed;
        frames.make(rng, way);
        let (judged, lent) = room.lend(frames.numbers);
        let answer = cut::answer(&frames.capture, frames.place, judged);
        let (told, _) = raw::parse(&frames.capture, frames.place, lent);
        self.held(&told, &answer)
    }

    fn more(&self) -> String {
        let count = self.different.count;
        format!("; at least {count} of the accepted frames differ before the end of their audio")
    }
}

pub struct Header(Framed);

impl Header {
    pub fn new(rng: &mut Rng) -> Self {
        Header(Framed::new(rng, 2, tiny, any_large))
    }
}

impl Operation for Header {
    fn ways(&self) -> usize {
        FRAME_WAYS
    }

    fn call(&mut self, rng: &mut Rng, way: usize) -> Held {
        let Framed { frames, room } = &mut self.0;
        frames.make(rng, way);
        // (A header has few rows.)
        let most = ROW * rng.below(70) + rng.below(ROW);
        let (judged, lent) = room.lend(frames.numbers.min(most));
        let judge = apart::header(&frames.capture, frames.place, judged);
        let (told, _) = raw::header(&frames.capture, frames.place, lent);
        let same = told == judge && room.same();
        Held::new(judge[header_at::REFUSAL] as usize, same, || {
            self.0.show(format!("judge {judge:?}\n  port {told:?}"))
        })
    }
}

pub struct Blocks {
    framed: Framed,
    /// The header answer of an earlier call.
    before: HeaderAnswer,
    header_room: Vec<i32>,
}

impl Blocks {
    pub fn new(rng: &mut Rng) -> Self {
        Blocks {
            framed: Framed::new(rng, RENEWED, tiny, any_large),
            before: [0; HEADER_ANSWER],
            header_room: vec![0; ROW * MOST_ROWS],
        }
    }
}

/// What is given to `blocks` as the header's answer: the right one, one number of it changed, another call's, or any numbers.
const GIVEN: usize = 4;

/// Frames that are refused early, and whole ones with another header answer.
const BLOCKS_LIGHT: [usize; 7] = [
    1,
    2,
    3,
    GIVEN * LIGHT[0],
    GIVEN * LIGHT[1],
    GIVEN * LIGHT[2],
    GIVEN * LIGHT[3],
];

impl Operation for Blocks {
    fn ways(&self) -> usize {
        GIVEN * FRAME_WAYS
    }

    fn light(&self) -> &[usize] {
        &BLOCKS_LIGHT
    }

    fn call(&mut self, rng: &mut Rng, way: usize) -> Held {
        let Framed { frames, room } = &mut self.framed;
        frames.make(rng, way / GIVEN);
        let lent = &mut self.header_room[..frames.numbers];
        let right = apart::header(&frames.capture, frames.place, lent);
        let mut given = right;
        match way % GIVEN {
            0 => {}
            1 => {
                let number = &mut given[rng.below(HEADER_ANSWER)];
                *number = match rng.below(3) {
                    0 => number.wrapping_add(1),
                    1 => *number ^ 1 << rng.below(32),
                    _ => rng.draw() as i32,
                };
            }
            2 => given = self.before,
            _ => given = std::array::from_fn(|_| rng.draw() as i32),
        }
        self.before = right;
        let (judged, lent) = room.lend(frames.numbers);
        let judge = apart::blocks(&frames.capture, frames.place, judged, &given);
        let (told, _) = raw::blocks(&frames.capture, frames.place, lent, &given);
        let same = told == judge && room.same();
        Held::new(judge[0] as usize, same, || {
            self.framed.show(format!(
                "given {given:?}\n  judge {judge:?}\n  port {told:?}"
            ))
        })
    }
}

/// A frame with few bins that is within the profile, but for one thing now and then.
fn near_the_profile(rng: &mut Rng) -> Style {
    let mut style = Style {
        snr: rng.pick(&[0, 5, 10, 20]),
        change: rng.pick(&[0, 0, 20]),
        narrow: true,
        dense: false,
        fscod: 0,
        frmsizecod: 20 + rng.below(4),
        acmod: rng.pick(&[2, 2, 7]),
        bsid: rng.pick(&[6, 8]),
        delta: rng.pick(&[0, 0, 30]),
        ..Style::random(rng)
    };
    match rng.below(10) {
        0 => style.fscod = 1 + rng.below(2),
        1 => style.acmod = rng.below(8),
        2 => style.bsid = rng.below(9),
        3 => style.frmsizecod = 18 + rng.below(2),
        _ => {}
    }
    style
}

pub struct Profile(Framed);

impl Profile {
    pub fn new(rng: &mut Rng) -> Self {
        Profile(Framed::new(rng, RENEWED, tiny, near_the_profile))
    }
}

impl Operation for Profile {
    fn ways(&self) -> usize {
        FRAME_WAYS + 1
    }

    fn light(&self) -> &[usize] {
        &LIGHT
    }

    fn call(&mut self, rng: &mut Rng, way: usize) -> Held {
        let Framed { frames, room } = &mut self.0;
        match way == FRAME_WAYS {
            true => frames.make_large(rng, number("dialnorm"), 0),
            false => frames.make(rng, way),
        }
        let (judged, lent) = room.lend(frames.numbers);
        let judge = profile::profile(&frames.capture, frames.place, judged);
        let (told, _) = raw::profile(&frames.capture, frames.place, lent);
        let same = told == judge && room.same();
        let outcome = match judge {
            [0, _, 0, _] => 0,
            [0, _, rule, _] => 100 + rule as usize,
            [refusal, ..] => refusal as usize,
        };
        Held::new(outcome, same, || {
            self.0.show(format!("judge {judge:?}\n  port {told:?}"))
        })
    }

    fn outcomes(&self) -> &'static str {
        "by refusal (0: accepted and within the profile; 100 + n: accepted, and rule n is broken)"
    }
}

/// Byte `i` of an output before a call.
pub fn untouched_byte(i: usize) -> u8 {
    0xA5 ^ i as u8
}

pub struct Write {
    framed: Framed,
    out: Lent<u8>,
}

impl Write {
    pub fn new(rng: &mut Rng) -> Self {
        Write {
            framed: Framed::new(rng, RENEWED, tiny, any_large),
            out: Lent::new(BURST + 16, untouched_byte),
        }
    }
}

impl Operation for Write {
    fn ways(&self) -> usize {
        FRAME_WAYS + 1
    }

    fn light(&self) -> &[usize] {
        &LIGHT
    }

    fn call(&mut self, rng: &mut Rng, way: usize) -> Held {
        let Framed { frames, room } = &mut self.framed;
        frames.make(rng, if way == FRAME_WAYS { 2 } else { way });
        let bytes = match way == FRAME_WAYS {
            true => rng.pick(&[0, 1, BURST - 1, rng.clone().below(BURST)]),
            false => BURST + rng.below(16),
        };
        let (judged, lent) = room.lend(frames.numbers);
        let (judged_out, out) = self.out.lend(bytes);
        let judge = burst::write(&frames.capture, frames.place, judged, judged_out);
        let (told, _) = raw::burst_write(&frames.capture, frames.place, lent, out);
        let same = told == judge && room.same() && self.out.same();
        Held::new(judge[0] as usize, same, || {
            let first = self.out.first();
            self.framed.show(format!(
                "{bytes} bytes of output, of which first differs {first:?}\n  judge {judge:?}\n  port {told:?}"
            ))
        })
    }
}

pub struct Correct {
    framed: Framed,
    capture: Lent<u8>,
    changes: Lent<i32>,
}

impl Correct {
    pub fn new(rng: &mut Rng) -> Self {
        Correct {
            framed: Framed::new(rng, RENEWED, tiny, any_large),
            capture: Lent::new(8192, untouched_byte),
            changes: Lent::new(12, untouched),
        }
    }
}

impl Operation for Correct {
    fn ways(&self) -> usize {
        FRAME_WAYS + 2
    }

    fn light(&self) -> &[usize] {
        &LIGHT
    }

    fn call(&mut self, rng: &mut Rng, way: usize) -> Held {
        let Framed { frames, room } = &mut self.framed;
        frames.make(rng, if way < FRAME_WAYS { way } else { 0 });
        let place = frames.place;
        let mut programme = 1 + usize::from(rng.chance(20));
        let mut level = 1 + rng.below(31);
        if way == FRAME_WAYS {
            programme = rng.pick(&[0, 2, 3, 255, 257, usize::MAX]);
        } else if way > FRAME_WAYS {
            level = rng.pick(&[0, 32, 33, 63, 257, 1 << 33, usize::MAX]);
        }
        let (judged, lent) = room.lend(frames.numbers);
        let (judged_bytes, bytes) = self.capture.lend_these(&frames.capture);
        let (judged_changes, changes) = self.changes.lend(12);
        let judged_changes = judged_changes.try_into().expect("twelve");
        let changes = changes.try_into().expect("twelve");
        let judge = level::correct(
            judged_bytes,
            place,
            programme,
            level,
            judged,
            judged_changes,
        );
        let (told, _) = raw::correct(bytes, place, programme, level, lent, changes);
        let same = told == judge && room.same() && self.capture.same() && self.changes.same();
        Held::new(judge[0] as usize, same, || {
            let first = [self.capture.first(), self.changes.first()];
            self.framed.show(format!(
                "programme {programme}, level {level}\n  first that differs of capture and changes: {first:?}\n  judge {judge:?}\n  port {told:?}"
            ))
        })
    }
}
