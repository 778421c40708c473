//! The generator of calls of `header` and `blocks`, the same for the same seed and size: every input of `cases`, and headers made to order,
//! are asked about by `header`, and then by `blocks` with header answers of every sort. What each call must answer is known beforehand
//! from the whole parse, which agrees with the published parser, and is checked here. A disagreement stops the program.

use crate::agree::{call_within, fresh_room, Ample, Call, Judge, Room};
use crate::apart::{blocks, header, LONGEST, MOST_ROWS, OTHER_HEADER};
use crate::bits;
use crate::cases::{self, Amounts};
use crate::craft::{sized, Asked};
use crate::cut::REFUSALS;
use crate::frames;
use crate::goals::{Goal, LAST_OF_HEADER};
use crate::hex;
use crate::layout::{answer_at, header_at, row_at, HeaderAnswer, ANSWER, HEADER_ANSWER, ROW};
use crate::names::{self, number};
use crate::rng::Rng;
use crate::tables::ac3_frame_words;
use std::collections::BTreeMap;
use std::rc::Rc;

/// What was asked, and what the judge answered.
#[derive(Clone, Copy, Debug)]
pub enum Told {
    Header(HeaderAnswer),
    Blocks {
        given: HeaderAnswer,
        answer: [i32; ANSWER],
    },
}

/// One call: a capture, a place, and every number of the room after it.
pub struct Case<'a> {
    pub capture: &'a [u8],
    pub place: usize,
    pub told: Told,
    pub room: &'a [i32],
}

/// Whence the header answer comes that `blocks` is given.
#[derive(Clone, Copy, Debug, PartialEq, Eq)]
pub enum Sort {
    Own,
    OfAnotherInput,
    OfAnotherPlace,
    OfAnotherRoom,
    OfAnotherLength,
    BeforeOtherBits,
    OneNumberChanged,
    OneMoreOneLess,
    RefusalTakenAway,
    RefusalPutIn,
    MadeUp,
}

impl Sort {
    pub const ALL: [Sort; 11] = [
        Sort::Own,
        Sort::OfAnotherInput,
        Sort::OfAnotherPlace,
        Sort::OfAnotherRoom,
        Sort::OfAnotherLength,
        Sort::BeforeOtherBits,
        Sort::OneNumberChanged,
        Sort::OneMoreOneLess,
        Sort::RefusalTakenAway,
        Sort::RefusalPutIn,
        Sort::MadeUp,
    ];

    /// Can such an answer be the one that `header` gives for the call?
    fn may_fit(self) -> bool {
        use Sort::*;
        !matches!(
            self,
            OneNumberChanged | OneMoreOneLess | RefusalTakenAway | RefusalPutIn
        )
    }
}

/// The ways in which one number is changed.
#[allow(clippy::type_complexity)]
pub const CHANGES: [(&str, fn(i32) -> i32); 9] = [
    ("one more", |n| n.wrapping_add(1)),
    ("one less", |n| n.wrapping_sub(1)),
    ("256 more", |n| n.wrapping_add(1 << 8)),
    ("65,536 more", |n| n.wrapping_add(1 << 16)),
    ("negated", i32::wrapping_neg),
    ("sign bit turned", |n| n ^ i32::MIN),
    ("all bits turned", |n| !n),
    ("the least number", |_| i32::MIN),
    ("the greatest number", |_| i32::MAX),
];

/// The refusals that stand in a header, and 0 for none. (6 cannot: see `goals::LAST_OF_HEADER`.)
pub const OF_HEADER: [i32; 7] = [0, 1, 2, 3, 4, 5, 7];

/// `header` answered with the refusal, 0 for none.
pub const HEADER: &str = "header answers";
/// `blocks` answered with the refusal, 0 for none.
pub const BLOCKS: &str = "blocks answers";
/// `header` had no room for the row of the name.
pub const FULL: &str = "header without a row for";
pub const MODE: &str = "header with acmod, lfeon";
pub const BSID: &str = "header with bsid";
pub const SIZE: &str = "header with fscod, bytes";
/// Bytes of addbsi.
pub const ADDBSI: &str = "header with bytes of addbsi";
/// Header answers of the sort that `blocks` took (1) or not (0).
pub const GIVEN: &str = "header answers of the sort, taken";
/// The refusal that `header` gives for the call, and that of the header answer given to `blocks`.
pub const PAIR: &str = "refusal of the header, of the given answer";
/// Which number was changed, and how, where the others fitted.
pub const CHANGED: &str = "number changed, by";
/// Which number was one more, and which one less.
pub const BALANCED: &str = "number one more, number one less";
pub const NAMED: &str = "by name";

/// Calls to be compared by name.
pub const BY_NAME: [&str; 7] = [
    "room for the header's rows alone",
    "room for one row fewer",
    "no room",
    "a header of the most rows",
    "the longest header",
    "a header answer of another room taken where the blocks have none",
    "a frame one byte short, given the answer of the whole one",
];

/// The goals that a run must reach.
pub fn required() -> Vec<Goal> {
    let mut goals: Vec<Goal> = Vec::new();
    goals.extend(OF_HEADER.map(|n| (HEADER, n, 0)));
    // A refusal of the header's own is 24 here, but for a room that is full only later.
    let of_blocks = (6..=REFUSALS).chain([0, OTHER_HEADER as i32]);
    goals.extend(of_blocks.map(|n| (BLOCKS, n, 0)));
    goals.extend((1..=number(LAST_OF_HEADER)).map(|n| (FULL, n, 0)));
    goals.extend((0..16).map(|m| (MODE, m / 2, m % 2)));
    goals.extend((0..9).map(|b| (BSID, b, 0)));
    for (fscod, code) in (0..3).flat_map(|f| (0..38).map(move |c| (f, c))) {
        let words = ac3_frame_words(fscod, code).expect("a size");
        goals.push((SIZE, fscod as i32, 2 * words as i32));
    }
    goals.extend((1..=64).map(|bytes| (ADDBSI, bytes, 0)));
    for sort in Sort::ALL {
        goals.push((GIVEN, sort as i32, 0));
        if sort.may_fit() && sort != Sort::MadeUp {
            goals.push((GIVEN, sort as i32, 1));
        }
    }
    for own in OF_HEADER {
        goals.extend(OF_HEADER.map(|given| (PAIR, own, given)));
    }
    let numbers = HEADER_ANSWER as i32;
    for at in 0..numbers {
        // Where nothing is refused these two are always 0.
        let zero = [header_at::REFUSAL, header_at::NAME].contains(&(at as usize));
        let ways = (0..)
            .zip(CHANGES)
            .filter(|(_, (way, _))| !(zero && *way == "negated"));
        goals.extend(ways.map(|(way, _)| (CHANGED, at, way)));
        let others = (0..numbers).filter(|less| *less != at);
        goals.extend(others.map(|less| (BALANCED, at, less)));
    }
    goals.extend((0..).zip(BY_NAME).map(|(at, _)| (NAMED, at, 0)));
    goals
}

/// Says what a goal is.
pub fn say(goal: &Goal) -> String {
    let (kind, a, b) = *goal;
    match kind {
        FULL => format!("{kind} {}", names::of(a).text),
        GIVEN => format!("{kind}: {:?} {b}", Sort::ALL[a as usize]),
        CHANGED => format!("{kind}: {a} {}", CHANGES[b as usize].0),
        NAMED => BY_NAME[a as usize].into(),
        _ => format!("{kind}: {a} {b}"),
    }
}

/// An input of the parser: the whole parse's answer to it, and the header's.
struct Input<'a> {
    capture: &'a [u8],
    place: usize,
    call: &'a Call,
    own: HeaderAnswer,
}

impl Input<'_> {
    fn refusal(&self) -> i32 {
        self.own[header_at::REFUSAL]
    }

    fn numbers(&self) -> usize {
        self.call.room.len()
    }
}

/// The rows of the header among those of a parse.
fn header_rows(ample: &Ample) -> impl Iterator<Item = &[i32]> {
    let rows = ample.rows.chunks(ROW);
    rows.take_while(|row| row[row_at::BLOCK] == -1)
}

/// Where the frame at a place ends, or would end, if its size was read.
fn end_of_frame(ample: &Ample, place: usize) -> Option<usize> {
    let codes: Vec<&[i32]> = header_rows(ample).skip(2).take(2).collect();
    let [fscod, frmsizecod] = codes[..] else {
        return None;
    };
    let words = ac3_frame_words(
        fscod[row_at::VALUE] as usize,
        frmsizecod[row_at::VALUE] as usize,
    )?;
    Some(place + 2 * words)
}

/// The header's answer that the parse with ample room entails: it ends where the blocks begin, or at the refusal.
fn entailed(ample: &Ample, room: usize) -> HeaderAnswer {
    let rows: Vec<&[i32]> = header_rows(ample).collect();
    let parsed = &ample.answer;
    let (refusal, count, bit) = match (parsed.number() as i32, rows.get(room / ROW)) {
        (_, Some(missing)) => (7, room / ROW, missing[row_at::POS]),
        (refusal @ 1..=5, None) => (refusal, parsed.rows, parsed.bit as i32),
        (_, None) => {
            let last = rows.last().expect("the sync word");
            (0, rows.len(), last[row_at::POS] + last[row_at::WIDTH])
        }
    };
    let value = |name: &str| {
        let row = rows.iter().find(|row| row[row_at::NAME] == number(name));
        row.expect(name)[row_at::VALUE]
    };
    let mut answer = [0; HEADER_ANSWER];
    answer[header_at::REFUSAL] = refusal;
    answer[header_at::ROWS] = count as i32;
    answer[header_at::BIT] = bit;
    answer[header_at::NAME] = 0;
    answer[header_at::BLOCK] = -1;
    if refusal == 0 {
        let codes = ["fscod", "frmsizecod"].map(|name| value(name) as usize);
        let words = ac3_frame_words(codes[0], codes[1]).expect("a size");
        answer[header_at::BYTES] = 2 * words as i32;
        answer[header_at::BSID] = value("bsid");
        answer[header_at::ACMOD] = value("acmod");
        answer[header_at::LFEON] = value("lfeon");
        answer[header_at::FSCOD] = codes[0] as i32;
    }
    answer
}

/// A call, for whoever looks into a disagreement.
fn said(numbers: usize, place: usize, capture: &[u8]) -> String {
    let bytes = hex::of(capture);
    format!("{numbers} numbers, place {place} of {bytes}")
}

/// What `blocks` answers to a header answer that does not fit.
fn not_taken() -> [i32; ANSWER] {
    let mut answer = [0; ANSWER];
    answer[answer_at::REFUSAL] = OTHER_HEADER as i32;
    answer[answer_at::BLOCK] = -1;
    answer
}

pub struct Apart<'s> {
    rng: Rng,
    judge: Judge,
    /// How often each goal was reached.
    pub reached: BTreeMap<Goal, usize>,
    pub calls: [usize; 2],
    /// The most rows and bits of a header.
    pub most_rows: i32,
    pub longest: i32,
    /// The answer to the last call of `header`, and the last one of each refusal before it.
    last: Option<HeaderAnswer>,
    kept: BTreeMap<i32, HeaderAnswer>,
    sink: &'s mut dyn FnMut(&Case<'_>),
}

impl<'s> Apart<'s> {
    pub fn new(seed: u64, sink: &'s mut dyn FnMut(&Case<'_>)) -> Self {
        Apart {
            rng: Rng(seed ^ 0xAD_D851),
            judge: Judge::default(),
            reached: BTreeMap::new(),
            calls: [0; 2],
            most_rows: 0,
            longest: 0,
            last: None,
            kept: BTreeMap::new(),
            sink,
        }
    }

    pub fn of(&self, goal: Goal) -> usize {
        self.reached.get(&goal).copied().unwrap_or(0)
    }

    fn reach(&mut self, goal: Goal) {
        *self.reached.entry(goal).or_default() += 1;
    }

    fn name(&mut self, what: &str) {
        let at = BY_NAME.iter().position(|name| *name == what);
        self.reach((NAMED, at.expect("a name") as i32, 0));
    }

    /// One call of `header`, about an input that was parsed.
    fn header<'a>(&mut self, capture: &'a [u8], place: usize, call: &'a Call) -> Input<'a> {
        let mut room = fresh_room(call.room.len());
        let own = header(capture, place, &mut room);
        let rows = own[header_at::ROWS] as usize;
        let mut left = fresh_room(call.room.len());
        left[..ROW * rows].copy_from_slice(&call.room[..ROW * rows]);
        let agreed = own == entailed(&call.ample, room.len()) && room == left;
        let of = || said(room.len(), place, capture);
        assert!(agreed, "the header: {own:?}\n{}", of());
        self.calls[0] += 1;
        self.note(&own, &call.ample);
        (self.sink)(&Case {
            capture,
            place,
            told: Told::Header(own),
            room: &room,
        });
        Input {
            capture,
            place,
            call,
            own,
        }
    }

    /// Counts what a header's answer reaches.
    fn note(&mut self, own: &HeaderAnswer, ample: &Ample) {
        let refusal = own[header_at::REFUSAL];
        self.reach((HEADER, refusal, 0));
        let mut rows = header_rows(ample).skip(own[header_at::ROWS] as usize);
        if let (7, Some(missing)) = (refusal, rows.next()) {
            self.reach((FULL, missing[row_at::NAME], 0));
        }
        if refusal == 0 {
            self.reach((MODE, own[header_at::ACMOD], own[header_at::LFEON]));
            self.reach((BSID, own[header_at::BSID], 0));
            self.reach((SIZE, own[header_at::FSCOD], own[header_at::BYTES]));
            let last = header_rows(ample).last().expect("the sync word");
            if last[row_at::NAME] == number("addbsi") {
                self.reach((ADDBSI, last[row_at::WIDTH] / 8, 0));
            }
            self.most_rows = self.most_rows.max(own[header_at::ROWS]);
            self.longest = self.longest.max(own[header_at::BIT]);
            if own[header_at::ROWS] == MOST_ROWS {
                self.name("a header of the most rows");
            }
            if own[header_at::BIT] == LONGEST {
                self.name("the longest header");
            }
        }
        if let Some(last) = self.last.replace(*own) {
            self.kept.insert(last[header_at::REFUSAL], last);
        }
    }

    /// One call of `blocks`, with a header answer of the sort. Tells whether it was taken.
    fn blocks(&mut self, input: &Input<'_>, given: HeaderAnswer, sort: Sort) -> bool {
        let (capture, place) = (input.capture, input.place);
        let mut room = fresh_room(input.numbers());
        let answer = blocks(capture, place, &mut room, &given);
        let taken = given == input.own && input.refusal() == 0;
        let agreed = match taken {
            true => answer == input.call.answer.numbers() && room == input.call.room,
            false => answer == not_taken() && room == fresh_room(room.len()),
        };
        let of = || said(room.len(), place, capture);
        assert!(agreed, "blocks with {given:?}: {answer:?}\n{}", of());
        assert!(!taken || sort.may_fit(), "{sort:?}: {given:?} was taken");
        self.calls[1] += 1;
        self.reach((BLOCKS, answer[answer_at::REFUSAL], 0));
        self.reach((GIVEN, sort as i32, taken.into()));
        let given_refusal = given[header_at::REFUSAL];
        if OF_HEADER.contains(&given_refusal) {
            self.reach((PAIR, input.refusal(), given_refusal));
        }
        (self.sink)(&Case {
            capture,
            place,
            told: Told::Blocks { given, answer },
            room: &room,
        });
        taken
    }

    /// What `header` answers to another call.
    fn elsewhere(&self, capture: &[u8], place: usize, numbers: usize) -> HeaderAnswer {
        header(capture, place, &mut fresh_room(numbers))
    }

    fn changed(&mut self, input: &Input<'_>, at: usize, way: usize) {
        let mut given = input.own;
        given[at] = CHANGES[way].1(given[at]);
        if given != input.own {
            self.blocks(input, given, Sort::OneNumberChanged);
            if input.refusal() == 0 {
                self.reach((CHANGED, at as i32, way as i32));
            }
        }
    }

    fn balanced(&mut self, input: &Input<'_>, more: usize, less: usize) {
        let mut given = input.own;
        given[more] += 1;
        given[less] -= 1;
        if more != less {
            self.blocks(input, given, Sort::OneMoreOneLess);
            if input.refusal() == 0 {
                self.reach((BALANCED, more as i32, less as i32));
            }
        }
    }

    /// Ten numbers at random: any, or such as an answer might have.
    fn made_up(&mut self) -> HeaderAnswer {
        let rng = &mut self.rng;
        match rng.below(4) {
            0 => [rng.pick(&[0, -1, 1, i32::MIN, i32::MAX]); HEADER_ANSWER],
            1 => [0; HEADER_ANSWER].map(|_| rng.draw() as i32),
            2 => [0; HEADER_ANSWER].map(|_| rng.below(64) as i32 - 1),
            _ => {
                let bytes = 2 * rng.pick(&[64, 69, 192, 384, 768, 1920]);
                let [rows, bit] = [20 + rng.below(10), 72 + rng.below(20)].map(|n| n as i32);
                let [bsid, acmod] = [9, 8].map(|below| rng.below(below) as i32);
                let [lfeon, fscod] = [2, 3].map(|below| rng.below(below) as i32);
                [0, rows, bit, 0, -1, bytes, bsid, acmod, lfeon, fscod]
            }
        }
    }

    /// A call of `blocks` with a header answer of the sort, made at random.
    fn given(&mut self, input: &Input<'_>, sort: Sort) {
        let (capture, place, numbers) = (input.capture, input.place, input.numbers());
        let length = capture.len();
        let rows = header_rows(&input.call.ample).count();
        let end = end_of_frame(&input.call.ample, place).unwrap_or(length);
        let given = match sort {
            Sort::Own => input.own,
            Sort::OfAnotherInput => {
                // Every other time of a refusal that was given least so far, where this is the header's.
                let met = |given: &i32| self.of((PAIR, input.refusal(), *given));
                let least = self.kept.iter().min_by_key(|(given, _)| met(given));
                match (least, self.kept.get(&0)) {
                    (_, Some(accepted)) if self.rng.chance(50) => *accepted,
                    (Some((_, least)), _) => *least,
                    _ => return,
                }
            }
            Sort::OfAnotherPlace => {
                let near = [place.saturating_add(1), place.saturating_sub(1)];
                let any = self.rng.below(length + 2);
                let other = self.rng.pick(&[near[0], near[1], end, end, 0, length, any]);
                self.elsewhere(capture, other, numbers)
            }
            Sort::OfAnotherRoom => {
                let fewer = self.rng.below(rows + 1);
                let choices = [rows, rows.saturating_sub(1), fewer, rows + 1, 4 * rows];
                let other = ROW * self.rng.pick(&choices) + self.rng.below(ROW);
                self.elsewhere(capture, place, other)
            }
            Sort::OfAnotherLength => {
                let any = self.rng.below(length + 1);
                let near = self.rng.pick(&[end, end.saturating_sub(1), length, any]);
                let size = near + self.rng.below(3);
                let mut other = capture[..length.min(size)].to_vec();
                other.extend(self.rng.bytes(size - other.len()));
                self.elsewhere(&other, place, numbers)
            }
            Sort::BeforeOtherBits => return self.before_other_bits(input),
            Sort::OneNumberChanged => {
                let [at, way] = [HEADER_ANSWER, CHANGES.len()].map(|below| self.rng.below(below));
                return self.changed(input, at, way);
            }
            Sort::OneMoreOneLess => {
                let [more, less] = [HEADER_ANSWER; 2].map(|below| self.rng.below(below));
                return self.balanced(input, more, less);
            }
            Sort::RefusalTakenAway => {
                if input.refusal() == 0 {
                    return;
                }
                // With the five numbers of an accepted header, or without.
                let mut given = input.own;
                given[header_at::REFUSAL] = 0;
                if let (Some(accepted), true) = (self.kept.get(&0), self.rng.chance(50)) {
                    given[header_at::BYTES..].copy_from_slice(&accepted[header_at::BYTES..]);
                }
                given
            }
            Sort::RefusalPutIn => {
                let mut given = input.own;
                let refusal = self.rng.pick(&OF_HEADER[1..]);
                given[header_at::REFUSAL] = refusal;
                if self.rng.chance(50) {
                    given[header_at::BYTES..].fill(0);
                }
                given
            }
            Sort::MadeUp => self.made_up(),
        };
        self.blocks(input, given, sort);
    }

    /// The same header before other bits, as many of them: it answers the same, and leaves the same rows; and that answer is taken there.
    fn before_other_bits(&mut self, input: &Input<'_>) {
        let (capture, place) = (input.capture, input.place);
        let mut other = self.rng.bytes(capture.len());
        let kept = 8 * place.min(capture.len()) + input.own[header_at::BIT] as usize;
        other[..kept / 8].copy_from_slice(&capture[..kept / 8]);
        if kept % 8 > 0 {
            let first = kept - kept % 8;
            bits::set(
                &mut other,
                first,
                kept % 8,
                bits::get(capture, first, kept % 8),
            );
        }
        let call = self
            .judge
            .call(&other, place, Room::Numbers(input.numbers()));
        let again = self.header(&other, place, &call);
        let written = ROW * input.own[header_at::ROWS] as usize;
        let same = again.own == input.own && call.room[..written] == input.call.room[..written];
        let of = || said(written, place, capture) + " and " + &hex::of(&other);
        assert!(same, "the header depends on what follows it: {}", of());
        self.blocks(&again, input.own, Sort::BeforeOtherBits);
    }

    /// Every room from none to one that holds the header and two rows more.
    fn rooms(&mut self, capture: &[u8], place: usize) {
        let ample = Rc::new(self.judge.ample(capture, place));
        let rows = header_rows(&ample).count();
        let accepted = entailed(&ample, ROW * rows);
        for limit in 0..=rows + 2 {
            let room = Room::Numbers(ROW * limit + self.rng.below(ROW));
            let call = call_within(ample.clone(), capture, place, room);
            let input = self.header(capture, place, &call);
            self.blocks(&input, input.own, Sort::Own);
            let taken = self.blocks(&input, accepted, Sort::OfAnotherRoom);
            if accepted[header_at::REFUSAL] != 0 {
                continue;
            }
            assert_eq!(taken, limit >= rows, "{limit} rows");
            let full = (input.refusal(), input.call.answer.number());
            if limit == rows {
                assert_eq!(full, (0, 7), "room for the header alone");
                self.name("room for the header's rows alone");
                self.name("a header answer of another room taken where the blocks have none");
            } else if limit < rows {
                assert_eq!(full, (7, 7), "no room for the header");
                match limit {
                    0 => self.name("no room"),
                    _ if limit + 1 == rows => self.name("room for one row fewer"),
                    _ => {}
                }
            }
        }
    }

    /// All that is done with an input to which the most is done: answers of every sort; then, in room for the header and some rows more,
    /// each number changed in each way, and each two together.
    fn thoroughly(&mut self, capture: &[u8], place: usize) {
        let left_over = self.rng.below(ROW);
        let call = self
            .judge
            .call(capture, place, Room::Sufficient { left_over });
        let input = self.header(capture, place, &call);
        for sort in Sort::ALL {
            (0..4).for_each(|_| self.given(&input, sort));
        }
        let rows = header_rows(&call.ample).count() + self.rng.below(20);
        let room = Room::Numbers(ROW * rows + left_over);
        let call = call_within(call.ample.clone(), capture, place, room);
        let input = self.header(capture, place, &call);
        for at in 0..HEADER_ANSWER {
            (0..CHANGES.len()).for_each(|way| self.changed(&input, at, way));
            (0..HEADER_ANSWER).for_each(|less| self.balanced(&input, at, less));
        }
    }

    /// Headers made to order: all that can stand in one, for every mode; every length of addbsi; every size.
    fn crafted(&mut self) {
        let full = |acmod: u32, lfeon: u32, bsid: u32, addbsil: u32| {
            move |asked: &Asked| match asked.name {
                "acmod" => Some(acmod),
                "lfeon" => Some(lfeon),
                "bsid" => Some(bsid),
                "addbsil" => Some(addbsil),
                "compre" | "langcode" | "audprodie" | "compr2e" | "langcod2e" | "audprodi2e"
                | "xbsi1e" | "xbsi2e" | "timecod1e" | "timecod2e" | "addbsie" => Some(1),
                _ => None,
            }
        };
        for (acmod, lfeon) in (0..8).flat_map(|acmod| [(acmod, 0), (acmod, 1)]) {
            for bsid in [6, 8] {
                let frame = sized(0, 20, &full(acmod, lfeon, bsid, 0));
                self.rooms(&frame, 0);
                self.thoroughly(&frame, 0);
            }
        }
        self.thoroughly(&[], 0);
        self.thoroughly(&sized(0, 20, &|_| None), usize::MAX);
        for addbsil in 0..64 {
            let bsid = addbsil % 9;
            let frame = sized(0, 20, &full(addbsil % 8, 1, bsid, addbsil));
            self.whole(&frame);
            self.whole(&sized(0, 0, &full(0, 0, 6, addbsil)));
        }
        for (fscod, code) in (0..3).flat_map(|f| (0..38).map(move |c| (f, c))) {
            self.whole(&sized(fscod, code, &|_| None));
        }
    }

    /// A frame with room for all of its rows, and answers of every sort; then cut short, with the answer of the whole one.
    fn whole(&mut self, frame: &[u8]) {
        let call = self.judge.call(frame, 0, Room::Sufficient { left_over: 0 });
        let input = self.header(frame, 0, &call);
        for sort in Sort::ALL {
            self.given(&input, sort);
        }
        let own = input.own;
        for length in [frame.len() - 1, self.rng.below(frame.len())] {
            let room = Room::Numbers(call.room.len());
            let short = self.judge.call(&frame[..length], 0, room);
            let input = self.header(&frame[..length], 0, &short);
            assert!(
                !self.blocks(&input, own, Sort::OfAnotherLength),
                "cut short"
            );
            if length + 1 == frame.len() {
                self.name("a frame one byte short, given the answer of the whole one");
            }
        }
    }

    /// The first frames of the encoder's files, and the place of the second.
    fn encoders(&mut self) {
        for (_, stream) in frames::kept() {
            let stream = &stream[..stream.len().min(cases::LONGEST)];
            let first = self.elsewhere(stream, 0, ROW * MOST_ROWS as usize);
            self.rooms(stream, 0);
            self.thoroughly(stream, 0);
            self.thoroughly(stream, first[header_at::BYTES] as usize);
        }
    }

    /// An input of the parser, with the right header answer and some others.
    fn of_parse(&mut self, case: &cases::Case<'_>) {
        let input = self.header(case.input, case.place, case.call);
        self.blocks(&input, input.own, Sort::Own);
        for _ in 0..2 {
            let sort = self.rng.pick(&Sort::ALL[1..]);
            if sort != Sort::BeforeOtherBits || self.rng.chance(50) {
                self.given(&input, sort);
            }
        }
        self.given(&input, Sort::OfAnotherInput);
    }

    pub fn run(&mut self, seed: u64, amounts: Amounts) {
        self.crafted();
        self.encoders();
        let mut each = |case: &cases::Case<'_>| self.of_parse(case);
        let mut parser = cases::Generator::new(seed, &mut each);
        parser.run_and_compared();
        parser.run(amounts);
    }

    /// What was to be reached and was not, or was and cannot be.
    pub fn missed(&self) -> Vec<String> {
        let required = required();
        let missed = required.iter().filter(|goal| self.of(**goal) == 0);
        let mut missed: Vec<String> = missed
            .map(|goal| format!("not reached: {}", say(goal)))
            .collect();
        let answers = self.reached.keys();
        let never = answers.filter(|(kind, _, _)| [HEADER, BLOCKS].contains(kind));
        let never = never.filter(|goal| !required.contains(goal));
        missed.extend(never.map(|goal| format!("cannot be, and was: {}", say(goal))));
        let most = (self.most_rows, self.longest);
        if most != (MOST_ROWS, LONGEST) {
            missed.push(format!("most rows and bits of a header: {most:?}"));
        }
        missed
    }
}
