//! The generator of calls about the profile, the same for the same seed and size: frames made to order, for every set of rules that are
//! broken together, every set of blocks with deltbaie 1 and every value that a rule looks at; drawn frames that break no rule, exactly one
//! or exactly two; each in exact, ample and short rooms, at places of longer captures, and damaged; and every input of `cases`. What a frame
//! made to order must give is known beforehand; every answer is held against the rules read from the frame's bits. A disagreement stops the
//! program.

use crate::agree::fresh_room;
use crate::bits;
use crate::cases::{self, Amounts};
use crate::craft::{sized, Asked};
use crate::cut::{answer, MANY_ROWS, REFUSALS};
use crate::draw::{accepted, Style};
use crate::layout::{row_at, ProfileAnswer, ROW};
use crate::names::number;
use crate::profile::*;
use crate::rng::Rng;
use crate::tables::ac3_frame_words;
use std::cell::RefCell;
use std::collections::{BTreeMap, BTreeSet};

/// One call and the judge's answer: four numbers, and every number of the room after the call.
pub struct Case<'a> {
    pub capture: &'a [u8],
    pub place: usize,
    pub answer: ProfileAnswer,
    pub room: &'a [i32],
}

/// A set of rules.
pub type Rules = BTreeSet<usize>;

/// The rules in a set that is told as a number, rule r by bit r - 1.
fn rules_of(set: usize) -> Rules {
    (1..=RULES)
        .filter(|rule| set >> (rule - 1) & 1 == 1)
        .collect()
}

/// The sets of rules, and of blocks.
pub const SETS: usize = 1 << RULES;
pub const BLOCK_SETS: usize = 64;

/// Two rules whose rows stand in the frame in the other order than the rules.
pub const TURNED: [(usize, usize); 4] = [
    (ACMOD, BSID),
    (ACMOD, WORDS),
    (BSID, WORDS),
    (DELTBAIE, DIALNORM),
];

/// What a frame made to order says where the rules look; block b has deltbaie 1 if bit b of `deltas` is 1.
#[derive(Clone, Copy, Debug, PartialEq, Eq)]
pub struct Order {
    pub fscod: u32,
    pub frmsizecod: u32,
    pub bsid: u32,
    pub acmod: u32,
    pub lfeon: u32,
    pub dialnorm: u32,
    pub deltas: u32,
}

/// Within the profile, at its edges: the least words and the least level.
pub const WITHIN: Order = Order {
    fscod: 0,
    frmsizecod: 20,
    bsid: 8,
    acmod: 2,
    lfeon: 0,
    dialnorm: 1,
    deltas: 0,
};

impl Order {
    /// The frame: the plainest one, but for values that no rule looks at, of which some are sent.
    pub fn frame(self, rng: &mut Rng) -> Vec<u8> {
        let rng = RefCell::new(rng);
        let rule = |asked: &Asked| {
            let value = match asked.name {
                "bsid" => self.bsid,
                "acmod" => self.acmod,
                "lfeon" => self.lfeon,
                "dialnorm" => self.dialnorm,
                "deltbaie" => self.deltas >> asked.block & 1,
                "dialnorm2" => rng.borrow_mut().below(32) as u32,
                "compre" | "audprodie" | "compr2e" | "blksw" | "dithflag" | "dynrnge" => {
                    rng.borrow_mut().below(2) as u32
                }
                "compr" | "dynrng" => rng.borrow_mut().below(256) as u32,
                "bsmod" => rng.borrow_mut().below(8) as u32,
                "crc1" => rng.borrow_mut().below(65536) as u32,
                _ => return None,
            };
            Some(value)
        };
        sized(self.fscod, self.frmsizecod, &rule)
    }

    /// The row that breaks a rule, if this order does: the header's rows begin syncword, crc1, fscod, frmsizecod, bsid, bsmod, acmod, the mix
    /// levels and dsurmod that acmod has, lfeon, dialnorm.
    fn row(self, rule: usize, rows: &[i32]) -> usize {
        let levels = [0, 0, 1, 1, 1, 2, 1, 2][self.acmod as usize];
        match rule {
            FSCOD => 2,
            WORDS => 3,
            BSID => 4,
            ACMOD => 6,
            LFEON => 7 + levels,
            DIALNORM => 8 + levels,
            _ => {
                let block = self.deltas.trailing_zeros() as i32;
                let name = number("deltbaie");
                let mut each = rows.chunks(ROW);
                each.position(|r| r[row_at::NAME] == name && r[row_at::BLOCK] == block)
                    .expect("every block has it")
            }
        }
    }
}

/// Codes of frames of a sampling rate with fewer than 384 words, or with as many or more.
fn codes(fscod: usize, fewer: bool) -> Vec<usize> {
    (0..38)
        .filter(|code| (ac3_frame_words(fscod, *code) < Some(384)) == fewer)
        .collect()
}

/// The first broken rule of an accepted frame (0: none) and the bit at which the value stands that breaks it, read from the bits of the
/// header; blocks are told by their rows. At 48 kHz the codes from 20 on are of 384 words and more.
fn by_bits(frame: &[u8], rows: &[i32]) -> (i32, i32) {
    let get = |at, width| bits::get(frame, at, width);
    let acmod = get(48, 3);
    let lfeon = 51 + [0, 0, 2, 2, 2, 4, 2, 4][acmod as usize];
    let delta = rows
        .chunks(ROW)
        .find(|r| r[row_at::NAME] == number("deltbaie") && get(r[row_at::POS] as usize, 1) == 1);
    let checks = [
        (get(32, 2) > 0, 32),
        (![2, 7].contains(&acmod), 48),
        (![6, 8].contains(&get(40, 5)), 40),
        (get(34, 6) < 20, 34),
        (acmod != 7 && get(lfeon, 1) == 1, lfeon as i32),
        (delta.is_some(), delta.map_or(0, |r| r[row_at::POS])),
        (get(lfeon + 1, 5) == 0, lfeon as i32 + 1),
    ];
    let first = (1..).zip(checks).find(|(_, (breaks, _))| *breaks);
    first.map_or((0, 0), |(rule, (_, at))| (rule, at))
}

pub struct Profiles<'s> {
    rng: Rng,
    /// Calls by refusal, 0 for none.
    pub refused: BTreeMap<i32, usize>,
    /// Accepted frames by the rule told, 0 for none.
    pub told: [usize; RULES + 1],
    /// Frames made to order, by the set of rules that they break.
    pub sets: [usize; SETS],
    /// Frames made to order that break the sixth rule first, by the set of blocks with deltbaie 1.
    pub deltas: [usize; BLOCK_SETS],
    /// Drawn frames that break no rule, exactly one, or exactly two.
    pub drawn: BTreeMap<Vec<usize>, usize>,
    /// Drawn frames that break the sixth rule first, by the block told.
    pub drawn_blocks: [usize; 6],
    /// Values and rooms that are to be compared by name.
    pub named: BTreeMap<&'static str, usize>,
    sink: &'s mut dyn FnMut(&Case<'_>),
}

/// What is to be compared by name.
pub const NAMED: [&str; 19] = [
    "fscod 1 and 2",
    "acmod 0, 1 and 3 to 6",
    "bsid 6",
    "bsid 7",
    "bsid 8",
    "bsid 0 to 5",
    "words 384",
    "words 320, the next fewer",
    "words by every other code",
    "lfeon 1 with acmod 2",
    "lfeon 1 with acmod 7",
    "lfeon 0 with acmod 2 and 7",
    "dialnorm 0",
    "dialnorm 1",
    "dialnorm 2 to 31",
    "a broken rule, and a row too few",
    "a broken rule, and no room",
    "a frame behind another",
    "a place past the end",
];

impl<'s> Profiles<'s> {
    pub fn new(seed: u64, sink: &'s mut dyn FnMut(&Case<'_>)) -> Self {
        Profiles {
            rng: Rng(seed ^ 0x384),
            refused: BTreeMap::new(),
            told: [0; RULES + 1],
            sets: [0; SETS],
            deltas: [0; BLOCK_SETS],
            drawn: BTreeMap::new(),
            drawn_blocks: [0; 6],
            named: BTreeMap::new(),
            sink,
        }
    }

    pub fn calls(&self) -> usize {
        self.refused.values().sum()
    }

    fn name(&mut self, what: &'static str) {
        *self.named.entry(what).or_default() += 1;
    }

    /// One call, held against the parse and against the frame's bits.
    fn ask(&mut self, capture: &[u8], place: usize, numbers: usize) -> ProfileAnswer {
        let (mut room, mut parsed) = (fresh_room(numbers), fresh_room(numbers));
        let told = profile(capture, place, &mut room);
        let parse = answer(capture, place, &mut parsed);
        let [refusal, rows, rule, row] = told;
        assert_eq!([refusal, rows], [parse.number() as i32, parse.rows as i32]);
        assert!(room == parsed, "the room is as the parse leaves it");
        if refusal == 0 {
            let (broken, at) = by_bits(&capture[place..], &room[..ROW * parse.rows]);
            assert_eq!(rule, broken, "by the frame's bits");
            match rule {
                0 => assert_eq!(row, 0),
                _ => assert_eq!(room[ROW * row as usize + row_at::POS], at),
            }
            self.told[rule as usize] += 1;
        } else {
            assert_eq!([rule, row], [0, 0], "a refused frame");
        }
        *self.refused.entry(refusal).or_default() += 1;
        (self.sink)(&Case {
            capture,
            place,
            answer: told,
            room: &room,
        });
        told
    }

    /// A frame with the rows of its parse: asked with just enough room and some left over.
    fn whole(&mut self, frame: &[u8], rows: usize) -> ProfileAnswer {
        let spare = self.rng.pick(&[0, 0, 1, ROW - 1, 2 * ROW + 3]);
        let told = self.ask(frame, 0, ROW * rows + spare);
        assert_eq!(told[..2], [0, rows as i32]);
        told
    }

    /// The rows of a frame that must be accepted.
    fn rows(&self, frame: &[u8]) -> Vec<i32> {
        let mut room = vec![0; ROW * MANY_ROWS];
        let parsed = answer(frame, 0, &mut room);
        assert_eq!(parsed.number(), 0, "an accepted frame");
        room.truncate(ROW * parsed.rows);
        room
    }

    /// A frame made to order, which breaks these rules and no other: the first of them is told, with its row. Gives frame and rows.
    fn ordered(&mut self, order: Order, rules: &Rules) -> (Vec<u8>, usize) {
        let frame = order.frame(&mut self.rng);
        let rows = self.rows(&frame);
        let count = rows.len() / ROW;
        let first = rules.first().copied();
        let expected = first.map_or([0, 0], |rule| [rule as i32, order.row(rule, &rows) as i32]);
        let told = self.whole(&frame, count);
        assert_eq!(told[2..], expected, "{order:?}");
        let all: Rules = broken(&rows).iter().map(|(rule, _)| *rule).collect();
        assert_eq!(all, *rules, "{order:?}");
        if first == Some(DELTBAIE) {
            self.deltas[order.deltas as usize] += 1;
        }
        (frame, count)
    }

    /// An order that breaks these rules and no other.
    fn order(&mut self, rules: &Rules) -> Order {
        let rng = &mut self.rng;
        let breaks = |rule| rules.contains(&rule);
        let fscod = if breaks(FSCOD) { 1 + rng.below(2) } else { 0 };
        let acmod = match (breaks(ACMOD), breaks(LFEON)) {
            (true, _) => rng.pick(&[0, 1, 3, 4, 5, 6]),
            (false, true) => 2,
            (false, false) => rng.pick(&[2, 7]),
        };
        let other_bsid = [0, 1, 2, 3, 4, 5, 7];
        Order {
            fscod: fscod as u32,
            frmsizecod: rng.pick(&codes(fscod, breaks(WORDS))) as u32,
            bsid: rng.pick(if breaks(BSID) { &other_bsid } else { &[6, 8] }),
            acmod,
            lfeon: (breaks(LFEON) || acmod == 7 && rng.chance(50)).into(),
            dialnorm: if breaks(DIALNORM) {
                0
            } else {
                1 + rng.below(31) as u32
            },
            deltas: if breaks(DELTBAIE) {
                1 + rng.below(63) as u32
            } else {
                0
            },
        }
    }

    /// Every set of rules.
    fn every_set(&mut self) {
        for set in 0..SETS {
            let rules = rules_of(set);
            let order = self.order(&rules);
            let (frame, rows) = self.ordered(order, &rules);
            self.sets[set] += 1;
            self.around(&frame, rows);
        }
    }

    /// Every set of blocks with deltbaie 1, alone, with dialnorm 0, and with an earlier rule broken.
    fn every_set_of_blocks(&mut self) {
        for deltas in 1..BLOCK_SETS as u32 {
            for rules in [
                vec![DELTBAIE],
                vec![DELTBAIE, DIALNORM],
                vec![LFEON, DELTBAIE],
            ] {
                let rules = rules.into_iter().collect();
                let order = self.order(&rules);
                self.ordered(Order { deltas, ..order }, &rules);
            }
        }
    }

    /// One value of an order changed, and the only rule that it then breaks, if it breaks one.
    fn edge(&mut self, what: &'static str, order: Order, rule: Option<usize>) {
        let (frame, rows) = self.ordered(order, &rule.into_iter().collect());
        self.name(what);
        self.short_rooms(&frame, rows, rule.is_some());
    }

    /// Every value that a rule looks at, by itself.
    fn edges(&mut self) {
        for fscod in 1..3 {
            // (At these rates code 20 has 417 and 576 words.)
            self.edge("fscod 1 and 2", Order { fscod, ..WITHIN }, Some(FSCOD));
        }
        for acmod in 0..8 {
            for lfeon in 0..2 {
                let order = Order {
                    acmod,
                    lfeon,
                    ..WITHIN
                };
                match (acmod, lfeon) {
                    (2, 1) => self.edge("lfeon 1 with acmod 2", order, Some(LFEON)),
                    (7, 1) => self.edge("lfeon 1 with acmod 7", order, None),
                    (2 | 7, _) => self.edge("lfeon 0 with acmod 2 and 7", order, None),
                    (_, 0) => self.edge("acmod 0, 1 and 3 to 6", order, Some(ACMOD)),
                    _ => drop(self.ordered(order, &Rules::from([ACMOD, LFEON]))),
                }
            }
        }
        for bsid in 0..9 {
            let order = Order { bsid, ..WITHIN };
            match bsid {
                6 => self.edge("bsid 6", order, None),
                7 => self.edge("bsid 7", order, Some(BSID)),
                8 => self.edge("bsid 8", order, None),
                _ => self.edge("bsid 0 to 5", order, Some(BSID)),
            }
        }
        for frmsizecod in 0..38 {
            let order = Order {
                frmsizecod,
                ..WITHIN
            };
            match frmsizecod {
                18 | 19 => self.edge("words 320, the next fewer", order, Some(WORDS)),
                20 | 21 => self.edge("words 384", order, None),
                _ => {
                    let rule = (frmsizecod < 18).then_some(WORDS);
                    self.edge("words by every other code", order, rule);
                }
            }
        }
        for dialnorm in 0..32 {
            for acmod in [2, 7] {
                let order = Order {
                    dialnorm,
                    acmod,
                    ..WITHIN
                };
                match dialnorm {
                    0 => self.edge("dialnorm 0", order, Some(DIALNORM)),
                    1 => self.edge("dialnorm 1", order, None),
                    _ => self.edge("dialnorm 2 to 31", order, None),
                }
            }
        }
    }

    /// Rooms that do not suffice: the frame is refused, whatever rule it breaks.
    fn short_rooms(&mut self, frame: &[u8], rows: usize, breaks: bool) {
        let any = self.rng.below(rows);
        let left_over = self.rng.below(ROW);
        for room in [rows - 1, 0, 12, any] {
            let told = self.ask(frame, 0, ROW * room + left_over);
            assert_eq!(told, [7, room as i32, 0, 0]);
        }
        if breaks {
            self.name("a broken rule, and a row too few");
            self.name("a broken rule, and no room");
        }
    }

    /// A frame in other surroundings: behind bytes, behind another frame, cut, and with a bit changed.
    fn around(&mut self, frame: &[u8], rows: usize) {
        let alone = self.ask(frame, 0, ROW * rows);
        let before = self.rng.below(40);
        let capture = [&self.rng.bytes(before)[..], frame, frame].concat();
        for place in [before, before + frame.len()] {
            assert_eq!(self.ask(&capture, place, ROW * rows), alone);
        }
        self.name("a frame behind another");
        for place in [
            capture.len() - 5,
            capture.len(),
            capture.len() + 1,
            usize::MAX,
        ] {
            assert_eq!(self.ask(&capture, place, ROW * rows), [1, 0, 0, 0]);
        }
        self.name("a place past the end");
        let cut = 6 + self.rng.below(frame.len() - 6);
        assert_eq!(self.ask(&frame[..cut], 0, ROW * rows), [4, 4, 0, 0]);
        self.damaged(frame, rows);
    }

    /// A bit changed: of the header, and anywhere.
    fn damaged(&mut self, frame: &[u8], rows: usize) {
        for below in [80, 80, 80, 8 * frame.len()] {
            let at = self.rng.below(below);
            let mut damaged = frame.to_vec();
            damaged[at / 8] ^= 128 >> (at % 8);
            self.ask(&damaged, 0, ROW * (rows + 20));
        }
    }

    /// A drawn frame that breaks these rules and no other, or none after many tries; with its rows.
    fn draw(&mut self, rules: &Rules) -> Option<(Vec<u8>, Vec<i32>)> {
        for _ in 0..40 {
            let order = self.order(rules);
            let rng = &mut self.rng;
            let style = Style {
                fscod: order.fscod as usize,
                frmsizecod: order.frmsizecod as usize,
                acmod: order.acmod as usize,
                bsid: order.bsid as usize,
                delta: if order.deltas > 0 {
                    rng.pick(&[10, 10, 50, 100])
                } else {
                    0
                },
                narrow: false,
                ..Style::random(rng)
            };
            let Some(mut frame) = accepted(style, rng) else {
                continue;
            };
            // The level is free: it changes nothing else.
            let lfeon = 51 + [0, 0, 2, 2, 2, 4, 2, 4][usize::from(frame[6] >> 5)];
            bits::set(&mut frame, lfeon + 1, 5, order.dialnorm);
            let rows = self.rows(&frame);
            let all: Rules = broken(&rows).iter().map(|(rule, _)| *rule).collect();
            if all == *rules {
                return Some((frame, rows));
            }
        }
        None
    }

    fn drawn(&mut self, rules: &[usize]) {
        let Some((frame, rows)) = self.draw(&rules.iter().copied().collect()) else {
            return;
        };
        let count = rows.len() / ROW;
        let told = self.whole(&frame, count);
        assert_eq!(told[2], rules.first().map_or(0, |rule| *rule as i32));
        if told[2] == DELTBAIE as i32 {
            let block = rows[ROW * told[3] as usize + row_at::BLOCK];
            self.drawn_blocks[block as usize] += 1;
        }
        if let [(_, first), .., (_, second)] = broken(&rows)[..] {
            if rules.len() == 2 {
                let turned = TURNED.contains(&(rules[0], rules[1]));
                assert_eq!(second < first, turned, "{rules:?} in the frame");
            }
        }
        *self.drawn.entry(rules.to_vec()).or_default() += 1;
        self.damaged(&frame, count);
        if self.rng.chance(20) {
            self.short_rooms(&frame, count, !rules.is_empty());
        }
    }

    fn drawn_frames(&mut self, size: usize) {
        for _ in 0..size {
            self.drawn(&[]);
            for rule in 1..=RULES {
                self.drawn(&[rule]);
                for other in rule + 1..=RULES {
                    self.drawn(&[rule, other]);
                }
            }
        }
        // Until each block was told.
        for _ in 0..300 {
            if self.drawn_blocks.contains(&0) {
                self.drawn(&[DELTBAIE]);
            }
        }
    }

    /// All of it. Every input of the parser is asked, too, `amounts` of them.
    pub fn run(&mut self, seed: u64, size: usize, amounts: Amounts) {
        self.edges();
        self.every_set_of_blocks();
        for _ in 0..size {
            self.every_set();
        }
        self.drawn_frames(size);
        let mut each = |case: &cases::Case<'_>| {
            self.ask(case.input, case.place, case.call.room.len());
        };
        let mut parser = cases::Generator::new(seed, &mut each);
        parser.run_and_compared();
        parser.run(amounts);
    }

    /// What was to be reached and was not, or was and cannot be.
    pub fn missed(&self) -> Vec<String> {
        let mut missed = Vec::new();
        let mut reach = |what: String, reached: bool| {
            if !reached {
                missed.push(format!("{what} was not reached"));
            }
        };
        for refusal in 0..=REFUSALS {
            reach(
                format!("refusal {refusal}"),
                self.refused.contains_key(&refusal),
            );
        }
        for (rule, times) in self.told.iter().enumerate() {
            reach(format!("rule {rule} told"), *times > 0);
        }
        for (set, times) in self.sets.iter().enumerate() {
            reach(format!("the rules {:?} broken", rules_of(set)), *times > 0);
        }
        for (set, times) in self.deltas.iter().enumerate().skip(1) {
            reach(format!("deltbaie 1 in the blocks of {set:06b}"), *times > 0);
        }
        for rule in 0..=RULES {
            for other in rule..=RULES {
                let rules: Rules = [rule, other].into_iter().filter(|r| *r > 0).collect();
                let rules: Vec<usize> = rules.into_iter().collect();
                let drawn = self.drawn.contains_key(&rules);
                reach(format!("a drawn frame that breaks {rules:?}"), drawn);
            }
        }
        for (block, times) in self.drawn_blocks.iter().enumerate() {
            reach(
                format!("a drawn frame with deltbaie 1 first in block {block}"),
                *times > 0,
            );
        }
        for what in NAMED {
            reach(what.into(), self.named.contains_key(what));
        }
        let unknown = self.refused.keys().filter(|n| !(0..=REFUSALS).contains(*n));
        missed.extend(unknown.map(|n| format!("refusal {n} cannot be, and was")));
        missed
    }
}
