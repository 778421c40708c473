//! The small binary list, made for a reader without a heap; vectors/README.md says its layout.

use crate::agree::Room;
use crate::cases::{Amounts, Case, Generator};
use crate::cut::REFUSALS;
use crate::goals::{self, Goal};
use crate::layout::{ANSWER, ROW};
use crate::list::{said, Said};
use crate::rng::Rng;
use std::collections::{BTreeMap, BTreeSet};

pub const MAGIC: &[u8; 4] = b"AC3J";

/// The longest room of a case: so many rows, and their numbers.
pub const MOST_ROWS: usize = 4096;
pub const MOST_NUMBERS: usize = MOST_ROWS * ROW;

/// A case as the list holds it.
pub struct Replayed<'a> {
    pub capture: &'a [u8],
    pub place: usize,
    pub room: Room,
    pub said: Said,
}

fn encode(case: &Case<'_>) -> Vec<u8> {
    let Said { numbers, checksum } = said(case);
    let mut out = Vec::new();
    out.extend((case.input.len() as u16).to_be_bytes());
    out.extend((case.place as u16).to_be_bytes());
    out.extend((case.call.room.len() as u32).to_be_bytes());
    out.extend(case.input);
    out.extend(numbers.iter().flat_map(|n| n.to_be_bytes()));
    out.extend(checksum.to_be_bytes());
    out
}

/// The cases of a list; stops at anything that is not its layout.
pub fn read(list: &[u8]) -> Vec<Replayed<'_>> {
    let mut rest = list;
    let mut take = |n: usize| {
        let (head, tail) = rest.split_at(n);
        rest = tail;
        head
    };
    let wide = |b: &[u8]| u32::from_be_bytes(b.try_into().expect("four bytes"));
    let narrow = |b: &[u8]| u16::from_be_bytes(b.try_into().expect("two bytes")) as usize;
    assert_eq!(take(4), MAGIC);
    let count = wide(take(4));
    let mut cases = Vec::new();
    for _ in 0..count {
        let (length, place) = (narrow(take(2)), narrow(take(2)));
        let numbers = wide(take(4)) as usize;
        assert!(numbers <= MOST_NUMBERS);
        let capture = take(length);
        let mut said = Said {
            numbers: [0; ANSWER],
            checksum: 0,
        };
        for n in &mut said.numbers {
            *n = wide(take(4)) as i32;
        }
        said.checksum = wide(take(4));
        let room = Room::Numbers(numbers);
        cases.push(Replayed {
            capture,
            place,
            room,
            said,
        });
    }
    assert!(rest.is_empty(), "nothing after the last case");
    cases
}

/// A candidate for the list: its bytes there, and the goals that it reaches.
struct Candidate {
    bytes: Vec<u8>,
    goals: Vec<Goal>,
    refusal: u32,
}

/// The bytes of a case beside its capture: two lengths and a place, the answer, the checksum.
const BESIDE: usize = 2 + 2 + 4 + 4 * ANSWER + 4;

/// A case of fewer bytes than this is short.
const SHORT: usize = BESIDE + 384;

/// A list that reaches each goal that the generator reaches, with short cases; then more cases of
/// all sorts, up to about `most` bytes.
pub fn make(seed: u64, most: usize) -> Vec<u8> {
    let mut candidates: Vec<Candidate> = Vec::new();
    // Of all cases with the same goals only the shortest is a candidate.
    let mut shortest: BTreeMap<Vec<Goal>, usize> = BTreeMap::new();
    let mut keep = |case: &Case<'_>| {
        if case.call.room.len() > MOST_NUMBERS || case.place > usize::from(u16::MAX) {
            return;
        }
        let mut goals = goals::reached(case);
        goals.sort();
        goals.dedup();
        let length = case.input.len();
        match shortest.get(&goals).copied() {
            Some(at) if candidates[at].bytes.len() <= BESIDE + length => {}
            Some(at) => candidates[at].bytes = encode(case),
            None => {
                shortest.insert(goals.clone(), candidates.len());
                let bytes = encode(case);
                let refusal = case.call.answer.number();
                candidates.push(Candidate {
                    bytes,
                    goals,
                    refusal,
                });
            }
        }
    };
    Generator::new(seed, &mut keep).run(Amounts::of_size(1));

    // A goal few candidates reach weighs more, so that its shortest case is found.
    let mut left: BTreeMap<Goal, usize> = BTreeMap::new();
    for goal in candidates.iter().flat_map(|c| &c.goals) {
        *left.entry(*goal).or_default() += 1;
    }
    let mut chosen: BTreeSet<usize> = BTreeSet::new();
    while let Some(goal) = left.iter().min_by_key(|(g, n)| (**n, **g)).map(|(g, _)| *g) {
        let gain = |c: &Candidate| c.goals.iter().filter(|g| left.contains_key(g)).count();
        let (at, best) = candidates
            .iter()
            .enumerate()
            .filter(|(_, c)| c.goals.contains(&goal))
            .min_by_key(|(_, c)| 1000 * c.bytes.len() / gain(c))
            .expect("a candidate reaches it");
        for goal in &best.goals {
            left.remove(goal);
        }
        chosen.insert(at);
    }
    // Then more of all sorts in turn, accepted frames every other time: they show the most.
    let mut rng = Rng(seed);
    let mut classes: BTreeMap<u32, Vec<(u64, usize)>> = BTreeMap::new();
    for (at, candidate) in candidates.iter().enumerate() {
        if candidate.bytes.len() < SHORT {
            let class = classes.entry(candidate.refusal).or_default();
            class.push((rng.draw(), at));
        }
    }
    classes.values_mut().for_each(|class| class.sort());
    let mut size: usize = chosen.iter().map(|&at| candidates[at].bytes.len()).sum();
    let mut turn = 0;
    while size + SHORT < most && classes.values().any(|class| !class.is_empty()) {
        turn += 1;
        let refusal = if turn % 2 == 0 {
            0
        } else {
            turn / 2 % (REFUSALS as u32 + 1)
        };
        let Some((_, at)) = classes.get_mut(&refusal).and_then(|class| class.pop()) else {
            continue;
        };
        if chosen.insert(at) {
            size += candidates[at].bytes.len();
        }
    }
    let mut out = MAGIC.to_vec();
    out.extend((chosen.len() as u32).to_be_bytes());
    chosen
        .iter()
        .for_each(|&at| out.extend(&candidates[at].bytes));
    out
}
