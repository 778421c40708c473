//! The generator of calls about bursts, the same for the same seed and size: every input of `cases` is written as a burst, wrapped in
//! one and read; of accepted frames the burst is read back, with faults planted in it one by one, in twos and at random; and rooms
//! stand around the exact sizes. What a planted fault must give is known beforehand and checked here; so is that reading undoes
//! writing and writing undoes reading. A disagreement stops the program.

use crate::agree::untouched;
use crate::burst::{read, write, BURST, WORDS};
use crate::cases::{self, Amounts};
use crate::craft::{sized, small};
use crate::cut::{answer, MANY_ROWS, REFUSALS};
use crate::frames;
use crate::layout::{BurstAnswer, ROW};
use crate::rng::Rng;
use crate::tables::ac3_frame_words;
use std::collections::BTreeMap;

/// What is asked: to write the frame at a place of a capture, or to read a burst.
#[derive(Clone, Copy, Debug)]
pub enum Asked<'a> {
    Write { capture: &'a [u8], place: usize },
    Read { burst: &'a [u8] },
}

impl Asked<'_> {
    /// 0 for writing, 1 for reading.
    pub fn function(&self) -> usize {
        matches!(self, Asked::Read { .. }).into()
    }

    /// Asks the judge.
    pub fn judge(&self, room: &mut [i32], out: &mut [u8]) -> BurstAnswer {
        match *self {
            Asked::Write { capture, place } => write(capture, place, room, out),
            Asked::Read { burst } => read(burst, room, out),
        }
    }
}

/// One call and the judge's answer: three numbers, and every number of the room and byte of the output after the call.
pub struct Case<'a> {
    pub asked: Asked<'a>,
    pub answer: BurstAnswer,
    pub room: &'a [i32],
    pub out: &'a [u8],
}

/// Byte `i` of the output before a call; never 0.
pub fn marked(i: usize) -> u8 {
    1 + (i % 255) as u8
}

/// The room and the output before a call, marked so that whatever is touched shows.
pub fn fresh(numbers: usize, bytes: usize) -> (Vec<i32>, Vec<u8>) {
    (
        (0..numbers).map(untouched).collect(),
        (0..bytes).map(marked).collect(),
    )
}

/// Refusals, and 0 for none, that each function must be seen to give. A burst has 6,136 bytes for a frame of at most 3,840, so reading
/// never gives 1 or 4.
pub fn required() -> [Vec<i32>; 2] {
    let own = |never: &[i32]| {
        (0..=REFUSALS)
            .filter(|n| !never.contains(n))
            .collect::<Vec<_>>()
    };
    [
        [own(&[]), vec![28]].concat(),
        [own(&[1, 4]), vec![28, 30, 31, 32, 33, 34]].concat(),
    ]
}

/// The faults of a burst, in the order in which they are looked for; `FRAME` stands for a refusal of the frame's own.
pub const FAULTS: [i32; 7] = [30, 31, FRAME, 32, 33, 34, 28];
const FRAME: i32 = 0;

/// A call of `read` that is being made: the burst of a frame of `length` bytes, room and output that suffice, then faults.
#[derive(Clone)]
struct Attempt {
    burst: Vec<u8>,
    length: usize,
    numbers: usize,
    bytes: usize,
}

impl Attempt {
    fn flip(&mut self, bit: usize) {
        self.burst[bit / 8] ^= 128 >> (bit % 8);
    }
}

/// A burst put together by hand around any bytes.
fn wrapped(bytes: &[u8], bits: u16, bsmod: u8) -> Vec<u8> {
    let [high, low] = bits.to_be_bytes();
    let mut burst = vec![0xF8, 0x72, 0x4E, 0x1F, bsmod, 0x01, high, low];
    burst.extend(bytes);
    burst.resize(BURST, 0);
    burst
}

pub struct Bursts<'s> {
    rng: Rng,
    /// Calls by function and by refusal, 0 for none.
    pub refused: [BTreeMap<i32, usize>; 2],
    /// Each bit of the four words turned, one at a time.
    pub bits: [usize; 8 * WORDS],
    /// Each two faults together, by their places in `FAULTS`, the earlier first.
    pub pairs: BTreeMap<(usize, usize), usize>,
    /// Rooms, outputs, bursts and frames of the sizes that are to be compared by name.
    pub named: BTreeMap<&'static str, usize>,
    accepted: usize,
    sink: &'s mut dyn FnMut(&Case<'_>),
}

impl<'s> Bursts<'s> {
    pub fn new(seed: u64, sink: &'s mut dyn FnMut(&Case<'_>)) -> Self {
        Bursts {
            rng: Rng(seed ^ 0x61937),
            refused: Default::default(),
            bits: [0; 8 * WORDS],
            pairs: BTreeMap::new(),
            named: BTreeMap::new(),
            accepted: 0,
            sink,
        }
    }

    pub fn calls(&self) -> usize {
        self.refused.iter().flat_map(BTreeMap::values).sum()
    }

    /// One call. Gives the answer and the output after it.
    fn ask(&mut self, asked: Asked<'_>, numbers: usize, bytes: usize) -> (BurstAnswer, Vec<u8>) {
        let (mut room, mut out) = fresh(numbers, bytes);
        let answer = asked.judge(&mut room, &mut out);
        *self.refused[asked.function()].entry(answer[0]).or_default() += 1;
        (self.sink)(&Case {
            asked,
            answer,
            room: &room,
            out: &out,
        });
        let mut rest = (answer[2] as usize..bytes).map(|i| out[i] == marked(i));
        assert!(rest.all(|same| same), "the output is untouched");
        (answer, out)
    }

    fn read(&mut self, attempt: &Attempt) -> BurstAnswer {
        let burst = &attempt.burst;
        self.ask(Asked::Read { burst }, attempt.numbers, attempt.bytes)
            .0
    }

    fn name(&mut self, what: &'static str) {
        *self.named.entry(what).or_default() += 1;
    }

    /// Plants a fault; gives the refusal that it leads to.
    fn plant(&mut self, fault: i32, attempt: &mut Attempt) -> i32 {
        let after = WORDS + attempt.length;
        match fault {
            30 => {
                let any = self.rng.below(2 * BURST);
                let length = self.rng.pick(&[
                    BURST - 1,
                    BURST + 1,
                    0,
                    WORDS,
                    after,
                    any + (any == BURST) as usize,
                ]);
                attempt.burst.resize(length, 0);
            }
            31 => {
                let bit = self.rng.below(48 - 3);
                attempt.flip(if bit < 37 { bit } else { bit + 3 });
            }
            32 => {
                let bit = 48 + self.rng.below(16);
                attempt.flip(bit);
            }
            33 => {
                let any = after + self.rng.below(BURST - after);
                let at = self.rng.pick(&[after, BURST - 1, any]);
                attempt.burst[at] = 1 << self.rng.below(8);
            }
            34 => attempt.burst[4] ^= 1 + self.rng.below(7) as u8,
            28 => {
                let any = self.rng.below(attempt.length);
                attempt.bytes = self.rng.pick(&[attempt.length - 1, 0, any]);
            }
            _ if self.rng.chance(50) => {
                let rows = attempt.numbers / ROW;
                attempt.numbers = ROW * self.rng.below(rows) + self.rng.below(ROW);
                return 7;
            }
            _ => {
                let bit = 8 * WORDS + self.rng.below(16);
                attempt.flip(bit);
                return 2;
            }
        }
        fault
    }

    /// Reads with the faults at these places of `FAULTS`: the earliest is told.
    fn planted(&mut self, sound: &Attempt, places: &[usize]) {
        let mut attempt = sound.clone();
        let mut first = 0;
        // From the last to the first, since the first cuts the burst.
        for place in places.iter().rev() {
            first = self.plant(FAULTS[*place], &mut attempt);
        }
        assert_eq!(self.read(&attempt)[0], first, "faults {places:?}");
    }

    /// An accepted frame with its rows, written and read back; gives the reading call.
    fn there_and_back(&mut self, frame: &[u8], rows: usize) -> Attempt {
        let (numbers, spare) = (ROW * rows + self.rng.below(ROW), self.rng.below(3));
        let attempt = Attempt {
            burst: wrapped(frame, 8 * frame.len() as u16, frame[5] & 7),
            length: frame.len(),
            numbers,
            bytes: frame.len() + spare,
        };
        let capture = frame;
        let asked = Asked::Write { capture, place: 0 };
        let (answer, out) = self.ask(asked, numbers, BURST + spare);
        assert_eq!(answer, [0, rows as i32, BURST as i32]);
        assert!(out[..BURST] == attempt.burst, "the burst");
        let burst = &attempt.burst;
        let (answer, out) = self.ask(Asked::Read { burst }, numbers, attempt.bytes);
        assert_eq!(answer, [0, rows as i32, frame.len() as i32]);
        assert!(out[..frame.len()] == *frame, "the frame");
        attempt
    }

    /// Faults at random, none of them sometimes.
    fn any_faults(&mut self, sound: &Attempt) {
        let places: Vec<usize> = (0..FAULTS.len()).filter(|_| self.rng.chance(20)).collect();
        self.planted(sound, &places);
    }

    /// Each fault alone and each two together.
    fn faults_in_twos(&mut self, sound: &Attempt) {
        for a in 0..FAULTS.len() {
            self.planted(sound, &[a]);
            for b in a + 1..FAULTS.len() {
                self.planted(sound, &[a, b]);
                *self.pairs.entry((a, b)).or_default() += 1;
            }
        }
    }

    /// Each bit of the four words turned.
    fn words(&mut self, sound: &Attempt) {
        for bit in 0..8 * WORDS {
            let mut attempt = sound.clone();
            attempt.flip(bit);
            let expected = match bit {
                // The third word's bits 10 to 8.
                37..40 => 34,
                0..48 => 31,
                _ => 32,
            };
            assert_eq!(self.read(&attempt)[0], expected, "bit {bit}");
            self.bits[bit] += 1;
        }
    }

    /// A reading call changed, and the refusal that it must give.
    fn changed(
        &mut self,
        what: &'static str,
        sound: &Attempt,
        refusal: i32,
        change: impl Fn(&mut Attempt),
    ) {
        let mut attempt = sound.clone();
        change(&mut attempt);
        assert_eq!(self.read(&attempt)[0], refusal, "{what}");
        self.name(what);
    }

    /// Sizes of burst, output and room around the exact ones; bytes after the frame; bsmod.
    fn edges(&mut self, frame: &[u8], rows: usize, sound: &Attempt) {
        let (length, after) = (frame.len(), WORDS + frame.len());
        self.changed("burst of 6,143 bytes", sound, 30, |a| {
            a.burst.truncate(BURST - 1)
        });
        self.changed("burst of 6,145 bytes", sound, 30, |a| a.burst.push(0));
        self.changed("empty burst", sound, 30, |a| a.burst.clear());
        self.changed("first byte after the frame", sound, 33, |a| {
            a.burst[after] = 1
        });
        self.changed("last byte after the frame", sound, 33, |a| {
            a.burst[BURST - 1] = 128
        });
        for other in 1..8 {
            self.changed("another bsmod in the third word", sound, 34, |a| {
                a.burst[4] ^= other
            });
            self.changed("another bsmod in the frame", sound, 34, |a| {
                a.burst[WORDS + 5] ^= other
            });
            self.changed("another bsmod in both", sound, 0, |a| {
                a.burst[4] ^= other;
                a.burst[WORDS + 5] ^= other;
            });
        }
        self.changed("frame read into no byte", sound, 28, |a| a.bytes = 0);
        self.changed("frame read into a byte too few", sound, 28, |a| {
            a.bytes = length - 1
        });
        self.changed("frame read into just enough", sound, 0, |a| {
            a.bytes = length
        });
        self.changed("frame read into a byte more", sound, 0, |a| {
            a.bytes = length + 1
        });
        self.changed("frame read into a burst's room", sound, 0, |a| {
            a.bytes = BURST
        });
        self.changed("frame read without room", sound, 7, |a| a.numbers = 0);
        self.changed("frame read, a number of room too few", sound, 7, |a| {
            a.numbers = ROW * rows - 1
        });
        self.changed("frame read, just enough room", sound, 0, |a| {
            a.numbers = ROW * rows
        });
        for (what, numbers, bytes, refusal) in [
            ("burst written into no byte", ROW * rows, 0, 28),
            (
                "burst written into a byte too few",
                ROW * rows,
                BURST - 1,
                28,
            ),
            ("burst written into just enough", ROW * rows, BURST, 0),
            ("burst written into a byte more", ROW * rows, BURST + 1, 0),
            ("burst written without room", 0, BURST, 7),
            (
                "burst written, a number of room too few",
                ROW * rows - 1,
                BURST,
                7,
            ),
            (
                "burst written, room and output too short",
                ROW * rows - 1,
                BURST - 1,
                7,
            ),
        ] {
            let capture = frame;
            let (answer, _) = self.ask(Asked::Write { capture, place: 0 }, numbers, bytes);
            assert_eq!(answer[0], refusal, "{what}");
            self.name(what);
        }
        for place in [1, length - 1, length, length + 1, usize::MAX] {
            let capture = frame;
            self.ask(Asked::Write { capture, place }, ROW * rows, BURST);
        }
        match length {
            128 => self.name("frame of 128 bytes"),
            3840 => self.name("frame of 3,840 bytes"),
            _ => {}
        }
    }

    /// All that is done with a frame to which the most is done.
    fn thoroughly(&mut self, frame: &[u8]) {
        let mut room = vec![0; ROW * MANY_ROWS];
        let rows = answer(frame, 0, &mut room).rows;
        let sound = self.there_and_back(frame, rows);
        self.words(&sound);
        self.edges(frame, rows, &sound);
        self.faults_in_twos(&sound);
    }

    /// Every byte after the frame, by itself.
    fn every_byte_after(&mut self, frame: &[u8]) {
        let mut room = vec![0; ROW * MANY_ROWS];
        let rows = answer(frame, 0, &mut room).rows;
        let mut attempt = self.there_and_back(frame, rows);
        for at in WORDS + frame.len()..BURST {
            attempt.burst[at] = 1 + self.rng.below(255) as u8;
            assert_eq!(self.read(&attempt)[0], 33, "byte {at}");
            attempt.burst[at] = 0;
        }
    }

    /// Frames of the smallest and of the largest size, and the first of each of the encoder's files.
    fn chosen(&mut self) {
        let (smallest, largest) = (small(&|_| None), sized(2, 37, &|_| None));
        for frame in [&smallest, &largest] {
            self.thoroughly(frame);
            self.every_byte_after(frame);
        }
        let mut room = vec![0; ROW * MANY_ROWS];
        for (_, stream) in frames::kept() {
            if let Ok(summary) = answer(&stream, 0, &mut room).verdict {
                self.thoroughly(&stream[..summary.bytes]);
                self.name("frame of the encoder");
            }
        }
    }

    /// An input of the parser: written, and read from a burst wrapped around it; if it is accepted, more.
    fn of_parse(&mut self, case: &cases::Case<'_>) {
        let (capture, place) = (case.input, case.place);
        let (parsed, numbers) = (&case.call.answer, case.call.room.len());
        let any = self.rng.below(BURST);
        let bytes = self
            .rng
            .pick(&[BURST, BURST, BURST, BURST - 1, BURST + 1, any]);
        let (told, _) = self.ask(Asked::Write { capture, place }, numbers, bytes);
        let expected = match parsed.number() as i32 {
            0 if bytes < BURST => 28,
            number => number,
        };
        assert_eq!(told[..2], [expected, parsed.rows as i32], "as the parse");

        let rest = capture.get(place..).unwrap_or(&[]);
        if let Ok(summary) = &parsed.verdict {
            let frame = &rest[..summary.bytes];
            let sound = self.there_and_back(frame, parsed.rows);
            self.any_faults(&sound);
            self.accepted += 1;
            if self.accepted % 40 == 0 {
                self.faults_in_twos(&sound);
            }
        }
        let kept = &rest[..rest.len().min(BURST - WORDS)];
        let code = usize::from(*kept.get(4).unwrap_or(&0));
        let words = ac3_frame_words(code >> 6, code & 63).unwrap_or(kept.len() / 2);
        let burst = &wrapped(kept, 16 * words as u16, kept.get(5).unwrap_or(&0) & 7);
        let bytes = 2 * words - usize::from(words > 0 && self.rng.chance(10));
        self.ask(Asked::Read { burst }, numbers, bytes);
    }

    pub fn run(&mut self, seed: u64, amounts: Amounts) {
        self.chosen();
        let mut each = |case: &cases::Case<'_>| self.of_parse(case);
        let mut parser = cases::Generator::new(seed, &mut each);
        parser.run_and_compared();
        parser.run(amounts);
    }

    /// What was to be reached and was not, or was and cannot be.
    pub fn missed(&self) -> Vec<String> {
        let mut missed = Vec::new();
        for ((function, required), refused) in FUNCTIONS.iter().zip(required()).zip(&self.refused) {
            let not_seen = required.iter().filter(|n| !refused.contains_key(n));
            missed.extend(not_seen.map(|n| format!("{function}: {n} was not reached")));
            let not_wanted = refused.keys().filter(|n| !required.contains(n));
            missed.extend(not_wanted.map(|n| format!("{function}: {n} cannot be, and was")));
        }
        let not_turned = (0..8 * WORDS).filter(|bit| self.bits[*bit] == 0);
        missed.extend(not_turned.map(|bit| format!("bit {bit} of the words was not turned")));
        let pairs = FAULTS.len() * (FAULTS.len() - 1) / 2;
        if self.pairs.len() != pairs {
            missed.push(format!("{} pairs of faults of {pairs}", self.pairs.len()));
        }
        let sizes = ["frame of 128 bytes", "frame of 3,840 bytes"];
        let no_frame = sizes.iter().filter(|size| !self.named.contains_key(*size));
        missed.extend(no_frame.map(|size| format!("no {size}")));
        missed
    }
}

pub const FUNCTIONS: [&str; 2] = ["write", "read"];
