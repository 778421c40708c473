//! The generator of edits, the same for the same seed and count.
//!
//! Calls of `set`: all small ones, and random ones around every edge. Edits of accepted frames: other values in one, some or all of the
//! fields that may be edited, single bits of them, bits of spans, bits after the audio. The original must accept the edited frame and give
//! the same answer, with equal rows but for those values; and where one other field is edited it must, for every name, be seen to refuse or
//! to give something else. A disagreement stops the program.

use crate::agree::{Ample, Judge};
use crate::bits;
use crate::corners;
use crate::draw::{accepted, Style};
use crate::edit::{editable, set, PAST_THE_END, TOO_LARGE, WIDEST, WRONG_WIDTH};
use crate::frames;
use crate::hex;
use crate::layout::{row_at, ANSWER, ROW};
use crate::names::{self, COUNT};
use crate::rng::Rng;
use std::collections::BTreeMap;

/// A value and where it is written; the position counts from the frame's first bit.
#[derive(Clone, Copy, Debug, PartialEq, Eq)]
pub struct Write {
    pub position: usize,
    pub width: usize,
    pub value: usize,
}

/// One call of `set` and the judge's answer.
pub struct Call<'a> {
    pub before: &'a [u8],
    pub place: usize,
    pub write: Write,
    pub answer: u8,
    pub after: &'a [u8],
}

/// The frame at a place, edited by some writes that are all done, and the original's answer to the edited one.
pub struct Edit<'a> {
    pub before: &'a [u8],
    pub place: usize,
    pub writes: &'a [Write],
    pub after: &'a [u8],
    pub answer: [i32; ANSWER],
    pub rows: &'a [i32],
}

pub enum Case<'a> {
    Set(Call<'a>),
    Edit(Edit<'a>),
}

/// What a call of `set` asks, beside the capture's length in bits: sums without bound, and the end as 64 bits would give it.
struct Asked {
    width: usize,
    value: usize,
    capture: u128,
    place: u128,
    first: u128,
    end: u128,
    end_of_64: u128,
}

impl Asked {
    fn new(length: usize, place: usize, write: Write) -> Self {
        let Write {
            position,
            width,
            value,
        } = write;
        let first = 8 * place as u128 + position as u128;
        Asked {
            width,
            value,
            capture: 8 * length as u128,
            place: place as u128,
            first,
            end: first + width as u128,
            end_of_64: (first + width as u128) % (1 << 64),
        }
    }

    fn wrong_width(&self) -> bool {
        self.width == 0 || self.width > WIDEST
    }

    fn past(&self) -> bool {
        self.end > self.capture
    }

    fn too_large(&self) -> bool {
        self.width < 64 && self.value >> self.width > 0
    }

    fn done(&self) -> bool {
        self.done_but_for_value() && !self.too_large()
    }

    fn done_but_for_value(&self) -> bool {
        !self.wrong_width() && !self.past()
    }
}

/// Do 64 bits not count so far?
fn far(bit: u128) -> bool {
    bit >= 1 << 64
}

type Edge = (&'static str, u8, fn(&Asked) -> bool);

/// Calls of `set` to be met, each with its answer.
#[rustfmt::skip]
const EDGES: [Edge; 19] = [
    ("width 0", WRONG_WIDTH, |a| a.width == 0),
    ("width 1", 0, |a| a.width == 1 && a.done()),
    ("width 16", 0, |a| a.width == 16 && a.done()),
    ("width 17", WRONG_WIDTH, |a| a.width == 17),
    ("the largest width", WRONG_WIDTH, |a| a.width == usize::MAX),
    ("ends with the capture", 0, |a| a.end == a.capture && a.done()),
    ("ends a bit past the capture", PAST_THE_END, |a| a.end == a.capture + 1 && !a.wrong_width()),
    ("begins at its end", PAST_THE_END, |a| a.first == a.capture && !a.wrong_width()),
    ("an empty capture", PAST_THE_END, |a| a.capture == 0 && !a.wrong_width()),
    ("a place that 64 bits do not count in bits", PAST_THE_END,
        |a| far(8 * a.place) && a.end_of_64 <= a.capture && !a.wrong_width()),
    ("a first bit that 64 bits do not count", PAST_THE_END,
        |a| !far(8 * a.place) && far(a.first) && a.end_of_64 <= a.capture && !a.wrong_width()),
    ("an end that 64 bits do not count", PAST_THE_END,
        |a| !far(a.first) && far(a.end) && a.end_of_64 <= a.capture && !a.wrong_width()),
    ("the largest value of its width", 0, |a| a.done() && a.value == (1 << a.width) - 1),
    ("the least value that is too large", TOO_LARGE, |a| a.done_but_for_value() && a.value == 1 << a.width),
    ("a value too large by bits above 16 alone", TOO_LARGE,
        |a| a.done_but_for_value() && a.too_large() && a.value % (1 << 16) < 1 << a.width),
    ("wrong width, past the end", WRONG_WIDTH, |a| a.wrong_width() && a.past() && !a.too_large()),
    ("wrong width, too large", WRONG_WIDTH, |a| a.wrong_width() && !a.past() && a.too_large()),
    ("past the end, too large", PAST_THE_END, |a| !a.wrong_width() && a.past() && a.too_large()),
    ("all three", WRONG_WIDTH, |a| a.wrong_width() && a.past() && a.too_large()),
];

/// Where edits are to be met beside fields: in each sort of span, and after the audio.
pub const ELSEWHERE: [&str; 7] = [
    "addbsi",
    "skipfld",
    "mantissas",
    "after audio_end",
    "after the frame",
    "frame at a later place",
    "all that may be edited",
];

/// Flags that say whether something follows them, so that no frame is the same with the other value.
pub const ANNOUNCING: [&str; 21] = [
    "compre",
    "langcode",
    "audprodie",
    "compr2e",
    "langcod2e",
    "audprodi2e",
    "xbsi1e",
    "xbsi2e",
    "timecod1e",
    "timecod2e",
    "addbsie",
    "dynrnge",
    "dynrng2e",
    "cplstre",
    "cplcoe",
    "rematstr",
    "baie",
    "snroffste",
    "cplleake",
    "deltbaie",
    "skiple",
];

/// How many edits are made of one frame.
const OF_A_FRAME: usize = 20;

/// How often something was tried, and how often it made a difference.
#[derive(Clone, Copy, Default)]
pub struct Tried {
    pub times: usize,
    pub differed: usize,
}

pub struct Edits<'s> {
    rng: Rng,
    judge: Judge,
    /// Calls of `set` by their answers.
    pub answers: BTreeMap<u8, usize>,
    pub edges: BTreeMap<&'static str, usize>,
    /// Values written, by width less 1 and by the bit of a byte at which they begin.
    pub places_in_a_byte: [[usize; 8]; WIDEST],
    /// Edited frames, and the fields that got another value, by their names' numbers.
    pub edits: usize,
    pub fields: [usize; COUNT + 1],
    pub elsewhere: BTreeMap<&'static str, usize>,
    /// Edits of one field that is neither in the list nor a span, by its name's number.
    pub steering: [Tried; COUNT + 1],
    sink: &'s mut dyn FnMut(&Case<'_>),
}

fn is_span(name: i32) -> bool {
    names::of(name).role.is_span()
}

fn may_be_edited(row: &[i32]) -> bool {
    editable(row[row_at::NAME] as usize)
}

/// The numbers of the names that are neither in the list nor spans.
pub fn not_listed() -> impl Iterator<Item = usize> {
    (1..=COUNT).filter(|n| !editable(*n) && !is_span(*n as i32))
}

/// Sizes and counts that are far out.
fn far_out(rng: &mut Rng) -> usize {
    let near = rng.below(40);
    let base = rng.pick(&[
        1 << 16,
        1 << 32,
        1 << 61,
        1 << 62,
        1 << 63,
        usize::MAX / 8,
        usize::MAX,
    ]);
    match rng.below(3) {
        0 => base,
        1 => base.saturating_add(near),
        _ => base - near,
    }
}

impl<'s> Edits<'s> {
    pub fn new(seed: u64, sink: &'s mut dyn FnMut(&Case<'_>)) -> Self {
        Edits {
            rng: Rng(seed ^ 0xED17),
            judge: Judge::default(),
            answers: BTreeMap::new(),
            edges: BTreeMap::new(),
            places_in_a_byte: Default::default(),
            edits: 0,
            fields: [0; COUNT + 1],
            elsewhere: BTreeMap::new(),
            steering: [Tried::default(); COUNT + 1],
            sink,
        }
    }

    /// One call of `set`.
    fn call(&mut self, before: &[u8], place: usize, write: Write) {
        let Write {
            position,
            width,
            value,
        } = write;
        let mut after = before.to_vec();
        let answer = set(&mut after, place, position, width, value);
        *self.answers.entry(answer).or_default() += 1;
        let asked = Asked::new(before.len(), place, write);
        for (what, expected, met) in EDGES {
            if met(&asked) {
                assert_eq!(answer, expected, "{what}: {place} {write:?}");
                *self.edges.entry(what).or_default() += 1;
            }
        }
        if answer == 0 {
            let at = 8 * place + position;
            assert_eq!(bits::get(&after, at, width) as usize, value, "its bits");
            let rest = 8 * before.len() - at - width;
            let others = bits::range_eq(before, 0, &after, 0, at)
                && bits::range_eq(before, at + width, &after, at + width, rest);
            assert!(others, "all other bits are as they were");
            self.places_in_a_byte[width - 1][at % 8] += 1;
        } else {
            assert_eq!(before, after, "nothing is written");
        }
        (self.sink)(&Case::Set(Call {
            before,
            place,
            write,
            answer,
            after: &after,
        }));
    }

    /// Every call up to a few bytes, with the values around the edges of each width.
    fn small_calls(&mut self) {
        for length in 0..=3 {
            let before = self.rng.bytes(length);
            for place in 0..=length + 1 {
                for position in 0..=8 * length + 2 {
                    for width in 0..=WIDEST + 2 {
                        let over = 1 << width;
                        let any = self.rng.below(over);
                        for value in [0, any, over - 1, over, over + 1] {
                            let write = Write {
                                position,
                                width,
                                value,
                            };
                            self.call(&before, place, write);
                        }
                    }
                }
            }
        }
    }

    /// A call at random, mostly one whose numbers stand around an edge.
    fn random_call(&mut self) {
        let rng = &mut self.rng;
        let length = [0, 1, 2, 3, rng.below(12), rng.below(12), rng.below(200)][rng.below(7)];
        let before = match rng.below(4) {
            0 => vec![0; length],
            1 => vec![0xFF; length],
            _ => rng.bytes(length),
        };
        let width = match rng.below(20) {
            0 => [far_out(rng), usize::MAX][rng.below(2)],
            1 => rng.pick(&[0, 17, 18, 32, 64]),
            2 => WIDEST,
            _ => 1 + rng.below(WIDEST),
        };
        let place = match rng.below(10) {
            0 => far_out(rng),
            1 => length + rng.below(3),
            2 => 1 << 61,
            _ => rng.below(length + 1),
        };
        // The position at which the capture's end stands, if the place is before it.
        let end = 8 * length.saturating_sub(place);
        let position = match rng.below(12) {
            0 => far_out(rng),
            // The same bit, when counted by 64 bits.
            1 => rng
                .below(8 * length + 1)
                .wrapping_sub(place.wrapping_mul(8)),
            // The end comes to 0 or a little more, when counted by 64 bits.
            2 => 0usize
                .wrapping_sub(width)
                .wrapping_sub(place.wrapping_mul(8))
                .wrapping_add(rng.below(9)),
            3 => end,
            4 | 5 => end.saturating_sub(width),
            6 => (end + 1).saturating_sub(width),
            7 => end.saturating_sub(width.saturating_add(1)),
            _ => rng.below(end + 1),
        };
        let over = 1usize.checked_shl(width.min(64) as u32).unwrap_or(0);
        let value = match rng.below(10) {
            0 => far_out(rng),
            1 => over,
            2 => over.wrapping_sub(1),
            3 => over.wrapping_add(rng.below(5)),
            4 => over.wrapping_mul(1 + rng.below(9)),
            5 => 0,
            _ => rng.draw() as usize & over.wrapping_sub(1),
        };
        let write = Write {
            position,
            width,
            value,
        };
        self.call(&before, place, write);
    }

    /// The rows of a name chosen first, so that rare names have their turn: every other time one met least so far.
    fn pick<'a>(&mut self, rows: &[&'a [i32]], met: impl Fn(i32) -> usize) -> Option<&'a [i32]> {
        let mut names: Vec<i32> = rows.iter().map(|r| r[row_at::NAME]).collect();
        names.sort_unstable();
        names.dedup();
        let name = match self.rng.chance(50) {
            true => *names.iter().min_by_key(|name| met(**name))?,
            false => *names.get(self.rng.below(names.len().max(1)))?,
        };
        let of_name: Vec<&&[i32]> = rows.iter().filter(|r| r[row_at::NAME] == name).collect();
        Some(of_name[self.rng.below(of_name.len())])
    }

    /// Another value for a row, or any.
    fn value(&mut self, row: &[i32], another: bool) -> Write {
        let (width, old) = (row[row_at::WIDTH] as usize, row[row_at::VALUE] as usize);
        let most = (1 << width) - 1;
        let value = match self.rng.below(6) {
            0 => 0,
            1 => most,
            2 => old ^ (1 << self.rng.below(width)),
            _ => self.rng.below(most + 1),
        };
        Write {
            position: row[row_at::POS] as usize,
            width,
            value: if another && value == old {
                old ^ 1
            } else {
                value
            },
        }
    }

    /// Some writes within a range of bits.
    fn within(&mut self, first: usize, end: usize, most: usize, writes: &mut Vec<Write>) {
        if first >= end {
            return;
        }
        for _ in 0..1 + self.rng.below(most) {
            let position = match self.rng.below(4) {
                0 => first,
                1 => end - 1,
                _ => first + self.rng.below(end - first),
            };
            let width = 1 + self.rng.below(WIDEST.min(end - position));
            let value = self.rng.below(1 << width);
            writes.push(Write {
                position,
                width,
                value,
            });
        }
    }

    fn meet(&mut self, what: &'static str) {
        *self.elsewhere.entry(what).or_default() += 1;
    }

    /// Other values in fields: one, some, half of them or all; or single bits of some.
    fn in_fields(&mut self, rows: &[i32], writes: &mut Vec<Write>) {
        let listed: Vec<&[i32]> = rows.chunks(ROW).filter(|row| may_be_edited(row)).collect();
        match self.rng.below(10) {
            0 => {
                writes.extend(listed.iter().map(|row| self.value(row, true)));
                self.meet("all that may be edited");
            }
            1 => {
                for row in listed {
                    if self.rng.chance(50) {
                        writes.push(self.value(row, false));
                    }
                }
            }
            2 => {
                for _ in 0..1 + self.rng.below(20) {
                    let row = listed[self.rng.below(listed.len())];
                    let first = row[row_at::POS] as usize;
                    self.within(first, first + row[row_at::WIDTH] as usize, 1, writes);
                }
            }
            3 | 4 => {
                for _ in 0..2 + self.rng.below(8) {
                    let row = listed[self.rng.below(listed.len())];
                    writes.push(self.value(row, false));
                }
            }
            _ => {
                let fields = self.fields;
                let row = self.pick(&listed, |name| fields[name as usize]);
                writes.push(self.value(row.expect("crc1 is always there"), true));
            }
        }
    }

    /// Bits of spans, and from audio_end on.
    fn elsewhere(&mut self, capture: &[u8], place: usize, whole: &Ample, writes: &mut Vec<Write>) {
        if self.rng.chance(30) {
            let spans = whole.rows.chunks(ROW).filter(|r| is_span(r[row_at::NAME]));
            let spans: Vec<&[i32]> = spans.filter(|r| r[row_at::WIDTH] > 0).collect();
            for _ in 0..1 + self.rng.below(3) {
                let elsewhere = self.elsewhere.clone();
                let met = |name| *elsewhere.get(names::of(name).text).unwrap_or(&0);
                if let Some(row) = self.pick(&spans, met) {
                    let first = row[row_at::POS] as usize;
                    self.within(first, first + row[row_at::WIDTH] as usize, 10, writes);
                    self.meet(names::of(row[row_at::NAME]).text);
                }
            }
        }
        let summary = whole.answer.verdict.as_ref().expect("an accepted frame");
        let (audio_end, frame_end) = (summary.audio_end, 8 * summary.bytes);
        let capture_end = 8 * (capture.len() - place);
        if self.rng.chance(30) && audio_end < frame_end {
            self.within(audio_end, frame_end, 10, writes);
            self.meet("after audio_end");
        }
        if self.rng.chance(30) && frame_end < capture_end {
            self.within(frame_end, capture_end, 4, writes);
            self.meet("after the frame");
        }
    }

    /// An edit of the accepted frame at a place, judged by the original.
    fn edit(&mut self, before: &[u8], place: usize, whole: &Ample) {
        let mut writes = Vec::new();
        self.elsewhere(before, place, whole, &mut writes);
        if writes.is_empty() || self.rng.chance(90) {
            self.in_fields(&whole.rows, &mut writes);
        }
        let mut after = before.to_vec();
        for Write {
            position,
            width,
            value,
        } in &writes
        {
            assert_eq!(set(&mut after, place, *position, *width, *value), 0);
        }
        let edited = self.judge.ample(&after, place);
        let mut expected = whole.rows.clone();
        for row in expected.chunks_mut(ROW).filter(|row| may_be_edited(row)) {
            let at = 8 * place + row[row_at::POS] as usize;
            let value = bits::get(&after, at, row[row_at::WIDTH] as usize) as i32;
            let changed = value != row[row_at::VALUE];
            self.fields[row[row_at::NAME] as usize] += usize::from(changed);
            row[row_at::VALUE] = value;
        }
        let answer = edited.answer.numbers();
        let agreed = answer == whole.answer.numbers() && edited.rows == expected;
        let of = || format!("place {place} of {}\n{writes:?}", hex::of(before));
        assert!(agreed, "another answer or other rows: {}", of());
        self.edits += 1;
        if place > 0 {
            self.meet("frame at a later place");
        }
        (self.sink)(&Case::Edit(Edit {
            before,
            place,
            writes: &writes,
            after: &after,
            answer,
            rows: &edited.rows,
        }));
    }

    /// One field that is neither in the list nor a span is given another value: is anything else than that value another, or is it refused?
    fn steer(&mut self, before: &[u8], place: usize, whole: &Ample, row: &[i32]) {
        let write = self.value(row, true);
        let mut after = before.to_vec();
        let answer = set(&mut after, place, write.position, write.width, write.value);
        assert_eq!(answer, 0);
        let edited = self.judge.ample(&after, place);
        let mut expected = whole.rows.clone();
        let its = expected.chunks_mut(ROW).find(|other| *other == row);
        its.expect("the row")[row_at::VALUE] = write.value as i32;
        let differs = edited.answer.verdict.is_err() || edited.rows != expected;
        let name = names::of(row[row_at::NAME]).text;
        let of = || format!("place {place} of {}\n{write:?}", hex::of(before));
        assert!(
            differs || !ANNOUNCING.contains(&name),
            "{name} announces nothing: {}",
            of()
        );
        let tried = &mut self.steering[row[row_at::NAME] as usize];
        tried.times += 1;
        tried.differed += usize::from(differs);
    }

    /// An accepted frame, alone or within a longer capture.
    fn frame(&mut self, frame: &[u8], edits: usize) {
        let (mut capture, mut place) = (frame.to_vec(), 0);
        if self.rng.chance(40) {
            place = self.rng.below(30);
            let after = self.rng.below(30);
            capture = [self.rng.bytes(place), capture, self.rng.bytes(after)].concat();
        }
        let whole = self.judge.ample(&capture, place);
        for i in 0..edits {
            self.edit(&capture, place, &whole);
            if i % 4 == 0 {
                let others = whole.rows.chunks(ROW).filter(|row| !may_be_edited(row));
                let others: Vec<&[i32]> = others.filter(|r| !is_span(r[row_at::NAME])).collect();
                let steering = self.steering;
                let row = self.pick(&others, |name| steering[name as usize].differed);
                let row = row.expect("the sync word is always there");
                self.steer(&capture, place, &whole, row);
            }
        }
    }

    /// The frames that are there already: those of the corner cases that are accepted, and the encoder's.
    fn kept(&mut self) -> [Vec<Vec<u8>>; 2] {
        let mut lists = [Vec::new(), Vec::new()];
        let corners = corners::all().into_iter().map(|c| c.capture);
        let streams = frames::kept().into_iter().map(|(_, stream)| stream);
        let kept = corners.map(|c| (0, c)).chain(streams.map(|s| (1, s)));
        for (list, stream) in kept {
            let mut at = 0;
            while let Ok(summary) = self.judge.ample(&stream, at).answer.verdict {
                lists[list].push(stream[at..at + summary.bytes].to_vec());
                at += summary.bytes;
            }
        }
        lists
    }

    /// As many edits of accepted frames, and half as many random calls of `set`, after all small ones.
    pub fn run(&mut self, count: usize) {
        self.small_calls();
        for _ in 0..count / 2 {
            self.random_call();
        }
        let kept = self.kept();
        while self.edits < count {
            let made = match self.rng.below(10) {
                0 => Some(kept[0][self.rng.below(kept[0].len())].clone()),
                1 | 2 => Some(kept[1][self.rng.below(kept[1].len())].clone()),
                _ => {
                    let style = Style::random(&mut self.rng);
                    accepted(style, &mut self.rng)
                }
            };
            if let Some(frame) = made {
                self.frame(&frame, OF_A_FRAME.min(count - self.edits));
            }
        }
        self.seek();
    }

    /// Names that were not yet seen to steer: delta segments of coupling rarely do, so frames full of them are drawn until they are.
    fn seek(&mut self) {
        for _ in 0..1000 {
            let left = self.not_seen_to_steer();
            if left.is_empty() {
                return;
            }
            let style = Style {
                coupling: 100,
                change: 100,
                delta: 100,
                snr: 25,
                ..Style::random(&mut self.rng)
            };
            let Some(frame) = accepted(style, &mut self.rng) else {
                continue;
            };
            let whole = self.judge.ample(&frame, 0);
            for row in whole.rows.chunks(ROW) {
                if left.contains(&(row[row_at::NAME] as usize)) {
                    self.steer(&frame, 0, &whole, row);
                }
            }
        }
    }

    fn not_seen_to_steer(&self) -> Vec<usize> {
        let not_seen = not_listed().filter(|n| self.steering[*n].differed == 0);
        not_seen.collect()
    }

    /// What was to be reached and was not.
    pub fn missed(&self) -> Vec<String> {
        let text = |name: usize| names::of(name as i32).text;
        let mut missed = Vec::new();
        for answer in [0, WRONG_WIDTH, PAST_THE_END, TOO_LARGE] {
            if !self.answers.contains_key(&answer) {
                missed.push(format!("set: {answer} was not given"));
            }
        }
        let edges = EDGES.iter().map(|(edge, ..)| edge);
        let edges = edges.filter(|edge| !self.edges.contains_key(*edge));
        missed.extend(edges.map(|edge| format!("set: {edge}")));
        for (width, bits) in (1..).zip(&self.places_in_a_byte) {
            let bits = (0..8).filter(|bit| bits[*bit] == 0);
            missed.extend(bits.map(|bit| format!("set: {width} bits at bit {bit} of a byte")));
        }
        let names = (1..=COUNT).filter(|n| editable(*n) && self.fields[*n] == 0);
        missed.extend(names.map(|n| format!("{} was not edited", text(n))));
        let elsewhere = ELSEWHERE
            .iter()
            .filter(|w| !self.elsewhere.contains_key(*w));
        missed.extend(elsewhere.map(|what| format!("no edit: {what}")));
        let steering = self.not_seen_to_steer().into_iter();
        missed.extend(steering.map(|n| format!("no edit of {} made a difference", text(n))));
        missed
    }
}
