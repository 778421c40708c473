//! The generator of calls about level correction, the same for the same seed and size: every level of both programmes; frames of every size
//! and rate; an encoder's frames and drawn ones; every set of fields that may change together; frames made so that crc2 would be the sync
//! word, or almost; frames whose audio ends at every bit near the end; every refusal, and each two together; places, rooms, and every input
//! of the parser. Each answer is held against one derived a second time, with the published `fix_crcs`, and against what is said of every
//! correction: a disagreement stops the program.

use super::{back, correct, crc1, crc2, five_eighths, on, register};
use super::{ABSENT, CRC2, CRCRSV, NO_TAIL, OUTSIDE, SYNC, TAIL};
use crate::agree::{fresh_room, untouched};
use crate::bits;
use crate::cases::{self, Amounts};
use crate::craft::{sized, Asked};
use crate::cut::{answer, MANY_ROWS};
use crate::draw::{accepted, seal, Style};
use crate::frame::{crc_status, fix_crcs, Codec, CrcStatus};
use crate::frames;
use crate::hex;
use crate::layout::{row_at, Changes, LevelAnswer, CHANGE, ROW};
use crate::names::number;
use crate::rng::Rng;
use std::collections::BTreeMap;

/// One call and the judge's answer, with everything lent after it.
pub struct Case<'a> {
    pub capture: &'a [u8],
    pub place: usize,
    pub programme: usize,
    pub level: usize,
    pub answer: LevelAnswer,
    /// The capture, the room and the list after the call.
    pub after: &'a [u8],
    pub room: &'a [i32],
    pub changes: &'a Changes,
}

/// A list that nothing was written to yet.
pub fn fresh_changes() -> Changes {
    std::array::from_fn(untouched)
}

/// The last refusal of a parse.
const REFUSALS: i32 = 23;

/// The sizes of frames: 38 codes at three rates.
const CODES: usize = 38;
const RATES: usize = 3;

/// Programmes and levels that are not there, some of them so in eight or 32 bits alone.
const NO_PROGRAMMES: [usize; 7] = [0, 3, 4, 257, 1 << 32 | 1, 1 << 63 | 2, usize::MAX];
const NO_LEVELS: [usize; 9] = [
    0,
    32,
    33,
    63,
    256 + 5,
    65_536 + 5,
    1 << 32 | 5,
    1 << 63 | 31,
    usize::MAX,
];

/// The fields that may change, in frame order; a set of them has bit 0 for crc1, and bit 3 for crc2.
const FIELDS: usize = 4;
const LEVEL_CHANGES: usize = 2;
const CRCRSV_CHANGES: usize = 4;

/// How many bits are left behind the audio, of those that are to be tried one by one.
const LEFT: usize = 40;

/// What is to be compared by name.
pub const NAMED: [&str; 18] = [
    "an encoder's frame",
    "a drawn frame",
    "checksums that were right: crc2 stays",
    "checksums that were wrong",
    "crcrsv flipped to 1",
    "crcrsv flipped to 0",
    "crc2 next to the sync word, crcrsv stays",
    "no change at all",
    "a frame behind bytes",
    "a frame before others",
    "a place past the end",
    "a frame that is cut",
    "a row too few",
    "50 before 51",
    "50 before 52",
    "51 before 52",
    "a parse's refusal before 50 to 52",
    "the second of two programmes",
];

pub struct Levels<'s> {
    rng: Rng,
    /// Calls by refusal, 0 for none.
    pub refused: BTreeMap<i32, usize>,
    /// Corrections by programme and level.
    pub levels: BTreeMap<(usize, usize), usize>,
    /// Corrections by fscod and frmsizecod.
    pub sizes: BTreeMap<(u32, u32), usize>,
    /// Corrections by programme and set of changed fields.
    pub sets: BTreeMap<(usize, usize), usize>,
    /// Frames by the bits that are left behind the audio, at most so many.
    pub left: [usize; LEFT],
    pub named: BTreeMap<&'static str, usize>,
    sink: &'s mut dyn FnMut(&Case<'_>),
}

/// Where the level of a programme stands in an accepted frame, by the bits of the header.
fn level_at(frame: &[u8], programme: usize) -> Option<usize> {
    let get = |at, width| bits::get(frame, at, width) as usize;
    let acmod = get(48, 3);
    let first = 52 + [0, 0, 2, 2, 2, 4, 2, 4][acmod];
    if programme == 1 {
        return Some(first);
    }
    // compr, langcod, and mixlevel with roomtyp, each behind its flag.
    let second = [8, 8, 7]
        .iter()
        .fold(first + 5, |at, width| at + 1 + width * get(at, 1));
    (programme == 2 && acmod == 0).then_some(second)
}

/// What a call must give, a second time: with the published parser's own way to mend checksums.
fn derived(
    capture: &[u8],
    place: usize,
    programme: usize,
    level: usize,
    numbers: usize,
) -> (LevelAnswer, Vec<u8>, Vec<i32>, Changes) {
    let (mut room, mut changes) = (fresh_room(numbers), fresh_changes());
    let mut after = capture.to_vec();
    let parsed = answer(capture, place, &mut room);
    let refused = |refusal| [refusal, parsed.rows as i32, 0];
    let told = match &parsed.verdict {
        Err(no) => refused(no.number as i32),
        Ok(summary) => {
            let frame = &mut after[place..place + summary.bytes];
            let end = 8 * frame.len();
            match level_at(frame, programme) {
                None => refused(ABSENT),
                Some(_) if level == 0 || level > 31 => refused(OUTSIDE),
                Some(_) if end - summary.audio_end < TAIL => refused(NO_TAIL),
                Some(at) => {
                    let name = ["dialnorm", "dialnorm2"][programme - 1];
                    let places = [
                        (number("crc1"), 16, 16),
                        (number(name), at, 5),
                        (CRCRSV, end - 17, 1),
                        (CRC2, end - 16, 16),
                    ];
                    let old = places.map(|(_, at, width)| bits::get(frame, at, width) as i32);
                    bits::set(frame, at, 5, level as u32);
                    fix_crcs(Codec::Ac3, frame);
                    let new = places.map(|(_, at, width)| bits::get(frame, at, width) as i32);
                    let changed = (0..FIELDS).filter(|i| old[*i] != new[*i]);
                    let list: Vec<i32> = changed
                        .flat_map(|i| [places[i].0, old[i], new[i]])
                        .collect();
                    changes[..list.len()].copy_from_slice(&list);
                    [0, parsed.rows as i32, (list.len() / CHANGE) as i32]
                }
            }
        }
    };
    (told, after, room, changes)
}

/// The set of the fields that a list says have changed.
fn set_of(told: LevelAnswer, changes: &Changes) -> usize {
    let names = [number("crc1"), number("dialnorm"), CRCRSV, CRC2];
    let listed = changes.chunks(CHANGE).take(told[2] as usize);
    let bit = |change: &[i32]| match names.iter().position(|name| *name == change[0]) {
        Some(at) => 1 << at,
        None => LEVEL_CHANGES,
    };
    listed.map(bit).sum()
}

/// The rows of an accepted frame.
fn rows_of(frame: &[u8]) -> Vec<i32> {
    let mut room = vec![0; ROW * MANY_ROWS];
    let parsed = answer(frame, 0, &mut room);
    assert_eq!(parsed.number(), 0, "an accepted frame");
    room.truncate(ROW * parsed.rows);
    room
}

/// Where the audio of an accepted frame ends.
fn audio_end(frame: &[u8]) -> usize {
    let parsed = answer(frame, 0, &mut vec![0; ROW * MANY_ROWS]);
    parsed.verdict.expect("an accepted frame").audio_end
}

impl<'s> Levels<'s> {
    pub fn new(seed: u64, sink: &'s mut dyn FnMut(&Case<'_>)) -> Self {
        Levels {
            rng: Rng(seed ^ 0x1E7E1),
            refused: BTreeMap::new(),
            levels: BTreeMap::new(),
            sizes: BTreeMap::new(),
            sets: BTreeMap::new(),
            left: [0; LEFT],
            named: BTreeMap::new(),
            sink,
        }
    }

    pub fn calls(&self) -> usize {
        self.refused.values().sum()
    }

    fn name(&mut self, what: &'static str) {
        *self.named.entry(what).or_default() += 1;
    }

    /// One call, held against what is derived, and against what is said of every correction. Gives the answer and the capture after it.
    fn ask(
        &mut self,
        capture: &[u8],
        place: usize,
        programme: usize,
        level: usize,
        numbers: usize,
    ) -> (LevelAnswer, Vec<u8>, Changes) {
        let mut after = capture.to_vec();
        let (mut room, mut changes) = (fresh_room(numbers), fresh_changes());
        let told = correct(&mut after, place, programme, level, &mut room, &mut changes);
        let again = derived(capture, place, programme, level, numbers);
        if (told, &after, &room, changes) != (again.0, &again.1, &again.2, again.3) {
            let input = hex::of(capture);
            println!("place {place}, programme {programme}, level {level} of {input}");
            panic!("{told:?}, {:?} is derived, or what is lent differs", again.0);
        }
        *self.refused.entry(told[0]).or_default() += 1;
        if told[0] == 0 {
            let bytes = self.corrected(capture, &after, place, programme, level);
            let frame = &after[place..place + bytes];
            let set = set_of(told, &changes);
            *self.levels.entry((programme, level)).or_default() += 1;
            *self.sets.entry((programme, set)).or_default() += 1;
            let size = (bits::get(frame, 32, 2), bits::get(frame, 34, 6));
            *self.sizes.entry(size).or_default() += 1;
            if set & CRCRSV_CHANGES > 0 {
                self.name(match bits::get(frame, 8 * bytes - 17, 1) {
                    1 => "crcrsv flipped to 1",
                    _ => "crcrsv flipped to 0",
                });
            }
            if set == 0 {
                self.name("no change at all");
            }
            if programme == 2 {
                self.name("the second of two programmes");
            }
        } else {
            assert!(after == capture, "a refusal leaves the frame as it was");
        }
        (self.sink)(&Case {
            capture,
            place,
            programme,
            level,
            answer: told,
            after: &after,
            room: &room,
            changes: &changes,
        });
        (told, after, changes)
    }

    /// What holds after every correction. Gives the frame's bytes.
    fn corrected(
        &mut self,
        before: &[u8],
        after: &[u8],
        place: usize,
        programme: usize,
        level: usize,
    ) -> usize {
        let (mut old, mut new) = (vec![0; ROW * MANY_ROWS], vec![0; ROW * MANY_ROWS]);
        let parsed = answer(before, place, &mut old);
        let again = answer(after, place, &mut new);
        let summary = parsed.verdict.as_ref().expect("an accepted frame");
        assert_eq!(parsed.numbers(), again.numbers());
        let (from, to) = (
            &before[place..][..summary.bytes],
            &after[place..][..summary.bytes],
        );
        let end = 8 * to.len();
        let at = level_at(to, programme).expect("the programme");
        // Nothing but these fields: put back, they give what was.
        let mut undone = after.to_vec();
        for (at, width) in [(16, 16), (at, 5), (end - 17, 1), (end - 16, 16)] {
            let value = bits::get(from, at, width);
            bits::set(&mut undone[place..], at, width, value);
        }
        assert!(undone == before, "only these fields change");
        // The same rows but for the values of two.
        for (was, is) in old.chunks(ROW).zip(new.chunks(ROW)).take(parsed.rows) {
            let mut was = was.to_vec();
            if was[row_at::POS] == 16 {
                was[row_at::VALUE] = bits::get(to, 16, 16) as i32;
            } else if was[row_at::POS] == at as i32 {
                was[row_at::VALUE] = level as i32;
            }
            assert_eq!(was, is);
        }
        let right = CrcStatus {
            crc1: Some(true),
            crc2: true,
        };
        assert_eq!(crc_status(Codec::Ac3, to), right);
        assert_eq!(register(to, 16, five_eighths(to.len())), 0);
        assert_ne!(bits::get(to, end - 16, 16), SYNC);
        if crc_status(Codec::Ac3, from) == right && bits::get(from, end - 16, 16) != SYNC {
            assert!(
                from[from.len() - 3..] == to[to.len() - 3..],
                "crc1 takes up the change"
            );
            self.name("checksums that were right: crc2 stays");
        } else {
            self.name("checksums that were wrong");
        }
        // A second call changes nothing.
        let (mut twice, mut changes) = (after.to_vec(), fresh_changes());
        let told = correct(&mut twice, place, programme, level, &mut new, &mut changes);
        assert_eq!((told[0], told[2], changes), (0, 0, fresh_changes()));
        assert!(twice == after, "a second call changes nothing");
        to.len()
    }

    /// A level of an accepted frame, which may have its checksums right; in just enough room and some left over.
    fn right(&mut self, frame: &[u8], programme: usize, level: usize) -> Vec<u8> {
        let spare = self.rng.pick(&[0, 0, 1, ROW - 1, 2 * ROW + 3]);
        let numbers = rows_of(frame).len() + spare;
        let (told, after, _) = self.ask(frame, 0, programme, level, numbers);
        assert_eq!(told[0], 0);
        after
    }

    fn level(&mut self) -> usize {
        1 + self.rng.below(31)
    }

    /// The programmes of a frame.
    fn programmes(frame: &[u8]) -> usize {
        if bits::get(frame, 48, 3) == 0 {
            2
        } else {
            1
        }
    }

    /// A frame made to order: of a size, with so many bits left behind the audio, or as many as are left if none are asked for. What is
    /// asked for is reached by optional parts of the header and skip fields; not every size takes every number.
    fn made(
        &mut self,
        fscod: u32,
        frmsizecod: u32,
        acmod: u32,
        left: Option<usize>,
    ) -> Option<Vec<u8>> {
        for _ in 0..200 {
            let flags = self.rng.below(256) as u32;
            let (dialnorm, other) = (self.rng.below(32) as u32, self.rng.below(32) as u32);
            let flag = |i: u32| Some(flags >> i & 1);
            let with = |skips: [u32; 6]| {
                let rule = |asked: &Asked| match asked.name {
                    "acmod" => Some(acmod),
                    "dialnorm" => Some(dialnorm),
                    "dialnorm2" => Some(other),
                    "compre" => flag(0),
                    "audprodie" => flag(1),
                    "timecod1e" => flag(2),
                    "timecod2e" => flag(3),
                    "addbsie" => flag(4),
                    "langcode" => flag(5),
                    "compr2e" => flag(6),
                    "audprodi2e" => flag(7),
                    "skiple" if left.is_some() => Some(1),
                    "skipl" => Some(skips[asked.block as usize]),
                    _ => None,
                };
                sized(fscod, frmsizecod, &rule)
            };
            let mut frame = with([0; 6]);
            if let Some(left) = left {
                let wanted = 8 * frame.len() - left;
                let Some(more) = wanted.checked_sub(audio_end(&frame)) else {
                    continue;
                };
                if more % 8 > 0 || more / 8 > 6 * 511 {
                    continue;
                }
                let mut bytes = more / 8;
                let skips = [(); 6].map(|()| {
                    let here = bytes.min(511);
                    bytes -= here;
                    here as u32
                });
                frame = with(skips);
                assert_eq!(audio_end(&frame), wanted);
            }
            let (end, audio) = (8 * frame.len(), audio_end(&frame));
            for at in audio..end {
                let bit = self.rng.below(2) as u32;
                bits::set(&mut frame, at, 1, bit);
            }
            if end - audio >= TAIL && self.rng.chance(50) {
                seal(&mut frame);
            }
            return Some(frame);
        }
        None
    }

    /// With room for it, whatever its audio.
    fn any_made(&mut self, acmod: u32) -> Vec<u8> {
        let (rate, code) = (self.rng.below(RATES), 4 + self.rng.below(CODES - 4));
        self.made(rate as u32, code as u32, acmod, None)
            .expect("a frame")
    }

    /// Makes crc2 come out as wanted, by bits behind the audio; crc1 takes up what stands before five eighths.
    fn forced(&mut self, frame: &mut [u8], wanted: u32) {
        let end = 8 * frame.len();
        let free = end - TAIL - 16;
        assert!(audio_end(frame) <= free);
        let behind = (0..16).fold(0, |register, i| back(register, wanted >> i & 1));
        let behind = (free + 16..free + TAIL).rev().fold(behind, |register, at| {
            back(register, bits::get(frame, at, 1))
        });
        let before = register(frame, five_eighths(frame.len()), free);
        let advanced = (0..16).fold(before, |register, _| on(register, 0));
        bits::set(frame, free, 16, behind ^ advanced);
        let mut mended = frame.to_vec();
        let first = crc1(&mended);
        bits::set(&mut mended, 16, 16, first);
        assert_eq!(crc2(&mended), wanted);
    }

    /// Every level of both programmes.
    fn every_level(&mut self) {
        for acmod in 0..8 {
            let mut frame = self.any_made(acmod);
            for programme in 1..=Self::programmes(&frame) {
                for level in 1..32 {
                    let after = self.right(&frame, programme, level);
                    if self.rng.chance(50) {
                        frame = after;
                    }
                }
            }
        }
    }

    /// Frames of every size and rate.
    fn every_size(&mut self) {
        for fscod in 0..RATES as u32 {
            for frmsizecod in 0..CODES as u32 {
                let acmod = self.rng.pick(&[0, 0, 1, 2, 7]);
                // The smallest have no room for five channels.
                let frame = self
                    .made(fscod, frmsizecod, acmod, None)
                    .or_else(|| self.made(fscod, frmsizecod, 1, None))
                    .expect("a frame of each size");
                let level = self.level();
                let programme = Self::programmes(&frame);
                self.right(&frame, programme, level);
            }
        }
    }

    /// Every set of fields that change together: a corrected frame with some of its fields as they were not.
    fn every_set(&mut self) {
        for programme in 1..=2 {
            for set in 0..1 << FIELDS {
                let mut frame = self.any_made(0);
                let end = 8 * frame.len();
                let wanted = match set & CRCRSV_CHANGES {
                    0 => self.rng.pick(&[1, 0x0B76, 0x8B72, 0x770B, 0xFFFF, 0]),
                    _ => SYNC,
                };
                self.forced(&mut frame, wanted);
                let (level, at) = (self.level(), level_at(&frame, programme).expect("two"));
                let mut before = self.right(&frame, programme, level);
                let fields = [(16, 16), (at, 5), (end - 17, 1), (end - 16, 16)];
                for (i, (at, width)) in fields.into_iter().enumerate() {
                    let value = bits::get(&before, at, width);
                    let other = match 1 << i {
                        CRCRSV_CHANGES => 1 - value,
                        LEVEL_CHANGES => value ^ (1 + self.rng.below(31) as u32),
                        _ => value ^ (1 + self.rng.below(65_535) as u32),
                    };
                    if set >> i & 1 == 1 {
                        bits::set(&mut before, at, width, other);
                    }
                }
                let numbers = rows_of(&before).len();
                let (told, _, changes) = self.ask(&before, 0, programme, level, numbers);
                assert_eq!(set_of(told, &changes), set);
            }
        }
    }

    /// Frames whose crc2 would be the sync word, and others near it.
    fn sync_words(&mut self, size: usize) {
        let near = [
            SYNC ^ 1,
            SYNC ^ 0x8000,
            SYNC ^ 0x8005,
            SYNC ^ 0xFFFF,
            SYNC.swap_bytes() >> 16,
            SYNC << 1,
            SYNC >> 1,
            0,
        ];
        for round in 0..16 * size {
            let acmod = (round % 8) as u32;
            let mut frame = self.any_made(acmod);
            let (end, level) = (8 * frame.len(), self.level());
            let programme = Self::programmes(&frame);
            let crcrsv = (round / 8 % 2) as u32;
            bits::set(&mut frame, end - 17, 1, crcrsv);
            self.forced(&mut frame, SYNC);
            let after = self.right(&frame, programme, level);
            assert_eq!(bits::get(&after, end - 17, 17), (1 - crcrsv) << 16 | 0x8B72);
            // With crc2 the sync word as it stands, and with the one that comes out.
            for stands in [SYNC, 0x8B72] {
                bits::set(&mut frame, end - 16, 16, stands);
                self.right(&frame, programme, level);
            }
            let wanted = self.rng.pick(&near);
            bits::set(&mut frame, end - 17, 1, crcrsv);
            self.forced(&mut frame, wanted);
            let after = self.right(&frame, programme, level);
            assert_eq!(bits::get(&after, end - 17, 17), crcrsv << 16 | wanted);
            self.name("crc2 next to the sync word, crcrsv stays");
        }
    }

    /// Frames whose audio ends at each bit near the end.
    fn ends(&mut self, size: usize) {
        for left in 0..LEFT {
            for round in 0..2 * size {
                let acmod = if round % 2 == 0 {
                    0
                } else {
                    1 + self.rng.below(7) as u32
                };
                let made = (0..40).find_map(|_| {
                    let (rate, code) = (self.rng.below(RATES), self.rng.below(CODES));
                    self.made(rate as u32, code as u32, acmod, Some(left))
                });
                let frame = made.expect("a frame of some size");
                self.left[left] += 1;
                let numbers = rows_of(&frame).len();
                for programme in 1..=Self::programmes(&frame) {
                    let level = self.level();
                    let (told, _, _) = self.ask(&frame, 0, programme, level, numbers);
                    assert_eq!(told[0], if left < TAIL { NO_TAIL } else { 0 }, "{left}");
                }
                self.refusals(&frame, left);
            }
        }
    }

    /// A frame with wrong programmes and levels, alone and together; so many bits are left behind its audio.
    fn refusals(&mut self, frame: &[u8], left: usize) {
        let numbers = rows_of(frame).len();
        let absent = [
            &NO_PROGRAMMES[..],
            if Self::programmes(frame) == 1 {
                &[2]
            } else {
                &[]
            },
        ]
        .concat();
        let is = |levels: &mut Self, programme, level, expected| {
            let (told, _, _) = levels.ask(frame, 0, programme, level, numbers);
            assert_eq!(told[0], expected);
        };
        let (level, wrong) = (self.level(), self.rng.pick(&NO_LEVELS));
        let programme = self.rng.pick(&absent);
        is(self, programme, level, ABSENT);
        is(self, programme, wrong, ABSENT);
        self.name("50 before 51");
        is(self, 1, wrong, OUTSIDE);
        if left < TAIL {
            self.name("50 before 52");
            self.name("51 before 52");
        }
        // And no frame at all.
        let refused = [
            (&frame[..frame.len() - 1], 0, numbers, 4),
            (frame, frame.len(), numbers, 1),
            (frame, usize::MAX, numbers, 1),
            (frame, 0, numbers - 1, 7),
        ];
        for (capture, place, numbers, expected) in refused {
            let (told, _, _) = self.ask(capture, place, programme, wrong, numbers);
            assert_eq!(told[0], expected);
        }
        self.name("a parse's refusal before 50 to 52");
        self.name("a frame that is cut");
        self.name("a place past the end");
        self.name("a row too few");
    }

    /// Every wrong programme and level of one frame.
    fn every_wrong(&mut self) {
        for acmod in [0, 2, 7] {
            let frame = self.any_made(acmod);
            let numbers = rows_of(&frame).len();
            for programme in NO_PROGRAMMES {
                let level = self.level();
                let (told, _, _) = self.ask(&frame, 0, programme, level, numbers);
                assert_eq!(told[0], ABSENT);
            }
            for level in NO_LEVELS {
                let programme = Self::programmes(&frame);
                let (told, _, _) = self.ask(&frame, 0, programme, level, numbers);
                assert_eq!(told[0], OUTSIDE);
            }
        }
    }

    /// A frame in other surroundings: what is around it stays.
    fn around(&mut self, frame: &[u8]) {
        let level = self.level();
        let programme = 1 + self.rng.below(Self::programmes(frame));
        let numbers = rows_of(frame).len();
        let alone = self.ask(frame, 0, programme, level, numbers);
        let (before, behind) = (1 + self.rng.below(40), self.rng.below(20));
        let (front, tail) = (self.rng.bytes(before), self.rng.bytes(behind));
        let capture = [&front[..], frame, frame, &tail].concat();
        for place in [before, before + frame.len()] {
            let (told, after, changes) = self.ask(&capture, place, programme, level, numbers);
            assert_eq!((told, changes), (alone.0, alone.2));
            assert!(after[place..place + frame.len()] == alone.1[..]);
        }
        self.name("a frame behind bytes");
        self.name("a frame before others");
    }

    fn encoders_frames(&mut self) {
        for (_, stream) in frames::kept() {
            let mut room = vec![0; ROW * MANY_ROWS];
            let Ok(summary) = answer(&stream, 0, &mut room).verdict else {
                let (told, _, _) = self.ask(&stream, 0, 1, 20, ROW * 100);
                assert!((1..=REFUSALS).contains(&told[0]));
                continue;
            };
            self.around(&stream[..summary.bytes]);
            self.name("an encoder's frame");
        }
    }

    fn drawn(&mut self, size: usize) {
        for round in 0..40 * size {
            let mut style = Style::random(&mut self.rng);
            if round % 3 == 0 {
                (style.acmod, style.narrow) = (0, false);
            }
            let Some(frame) = accepted(style, &mut self.rng) else {
                continue;
            };
            self.around(&frame);
            let left = 8 * frame.len() - audio_end(&frame);
            self.refusals(&frame, left);
            self.name("a drawn frame");
        }
    }

    /// All of it. Every input of the parser is asked, too, `amounts` of them.
    pub fn run(&mut self, seed: u64, size: usize, amounts: Amounts) {
        self.every_level();
        self.every_size();
        self.every_set();
        self.every_wrong();
        self.sync_words(size);
        self.ends(size);
        self.encoders_frames();
        self.drawn(size);
        let mut each = |case: &cases::Case<'_>| {
            let wrong = self.rng.pick(&[1, 2, 1, 2, 0, 3]);
            let level = self.rng.below(33);
            self.ask(case.input, case.place, wrong, level, case.call.room.len());
        };
        let mut parser = cases::Generator::new(seed, &mut each);
        parser.run_and_compared();
        parser.run(amounts);
    }

    /// What was to be reached and was not, or was and cannot be.
    pub fn missed(&self) -> Vec<String> {
        let mut missed = Vec::new();
        let mut reach = |what: String, reached: bool| {
            if !reached {
                missed.push(format!("{what} was not reached"));
            }
        };
        let refusals = (0..=REFUSALS).chain([ABSENT, OUTSIDE, NO_TAIL]);
        for refusal in refusals.clone() {
            reach(
                format!("refusal {refusal}"),
                self.refused.contains_key(&refusal),
            );
        }
        for programme in 1..=2 {
            for level in 1..32 {
                let reached = self.levels.contains_key(&(programme, level));
                reach(format!("level {level} of programme {programme}"), reached);
            }
            for set in 0..1 << FIELDS {
                let reached = self.sets.contains_key(&(programme, set));
                reach(
                    format!("changes {set:04b} of programme {programme}"),
                    reached,
                );
            }
        }
        for fscod in 0..RATES as u32 {
            for frmsizecod in 0..CODES as u32 {
                let reached = self.sizes.contains_key(&(fscod, frmsizecod));
                reach(format!("size {frmsizecod} of rate {fscod}"), reached);
            }
        }
        for (left, times) in self.left.iter().enumerate() {
            reach(format!("{left} bits behind the audio"), *times > 0);
        }
        for what in NAMED {
            reach(what.into(), self.named.contains_key(what));
        }
        let known: Vec<i32> = refusals.collect();
        let unknown = self.refused.keys().filter(|n| !known.contains(n));
        missed.extend(unknown.map(|n| format!("refusal {n} cannot be, and was")));
        missed
    }
}
