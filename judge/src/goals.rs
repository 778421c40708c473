//! What the inputs are to reach. A goal is a kind and one or two numbers.

use crate::cases::Case;
use crate::corners;
use crate::cut::{Unfit, REFUSALS};
use crate::features::{self, FEATURES};
use crate::layout::{row_at, NO_PART, ROW};
use crate::mantissas;
use crate::names::{self, number, Part, NAMES};
use crate::tables::ac3_frame_words;
use std::collections::BTreeMap;

pub type Goal = (&'static str, i32, i32);

/// Accepted with a row of the name.
pub const NAME: &str = "name";
/// Refused with the number.
pub const REFUSAL: &str = "refusal";
/// Refused with the number, the last row written being of the name.
pub const SITE: &str = "refusal after the name";
/// Refused with the number in the block.
pub const IN_BLOCK: &str = "refusal in block";
/// Refused with 6 in the block, at one of the `SORTS`.
pub const SIX_IN: &str = "refusal 6 in block";
/// Refused with 6 or with 7 at the name.
pub const SIX: &str = "refusal 6 at name";
pub const SEVEN: &str = "refusal 7 at name";
/// Refused with 7 for want of the last row alone.
pub const ONE_ROW_SHORT: &str = "rows one too few";
/// Refused with 17: the exponent fell below 0 (0) or rose above 24 (1).
pub const OUTSIDE: &str = "exponent below 0 or above 24";
/// Refused with the number for the value, see `judged`.
pub const JUDGED: &str = "refusal, value judged";
/// A corner case, by its place in the list.
pub const CORNER: &str = "corner case";
pub const MODE: &str = "acmod, lfeon";
pub const BSID: &str = "bsid";
pub const SIZE: &str = "fscod, frmsizecod";
pub const STRATEGY: &str = "block, chexpstr";
pub const RANGE: &str = "cplbegf, cplendf";
pub const VALUE: &str = "name, value";
/// The last band, group or segment of the name in an accepted frame, each counted from 0.
pub const LAST_PART: &str = "name, last part";
/// An accepted frame's feature, by its place in the list.
pub const FEATURE: &str = "feature";
/// What the mantissas of a block show, see `mantissas::SHOWN`.
pub const MANTISSAS: &str = "mantissas";
/// Where in a longer capture, see `PLACES`.
pub const PLACE: &str = "place";
/// Numbers of room left over beyond whole rows, in an accepted frame (0) and in refusal 7 (1).
pub const LEFT_OVER: &str = "accepted or 7, numbers left over";

/// What may not fit in a block. (The header always fits: see `LAST_OF_HEADER`.)
pub const SORTS: [&str; 3] = ["a field", "a skip field", "mantissas"];

fn sort(name: i32) -> i32 {
    match names::of(name).text {
        "skipfld" => 1,
        "mantissas" => 2,
        _ => 0,
    }
}

pub const PLACES: [&str; 6] = [
    "accepted at byte 0 of a longer capture",
    "accepted at a later place",
    "refused with 4 at a later place",
    "refused with 1 within the last five bytes",
    "refused with 1 at the end",
    "refused with 1 past the end",
];

/// Names of which every value that can stand in an accepted frame is a goal.
const VALUES: [(&str, i32); 7] = [
    ("chbwcod", 61),
    ("csnroffst", 64),
    ("cplabsexp", 14),
    ("floorcod", 8),
    ("deltba", 8),
    ("cpldeltba", 8),
    ("bsmod", 8),
];

/// For the names that have bands or segments, every number of them as the last; for those that have groups, the greatest.
fn last_parts() -> impl Iterator<Item = Goal> {
    (1..).zip(&NAMES).flat_map(|(n, name)| {
        let most = name.part.most();
        let from = match name.part {
            Part::Group(_) => most - 1,
            _ => 0,
        };
        (from..most).map(move |last| (LAST_PART, n, last))
    })
}

/// The goals that a case reaches.
pub fn reached(case: &Case<'_>) -> Vec<Goal> {
    let mut goals = Vec::new();
    let answer = &case.call.answer;
    let rows = case.call.room[..ROW * answer.rows].chunks(ROW);
    let rest = case.input.len().checked_sub(case.place);
    let left_over = (case.call.room.len() % ROW) as i32;
    let refusal = answer.number() as i32;
    goals.extend(case.corner.map(|at| (CORNER, at, 0)));
    match &answer.verdict {
        Ok(s) => {
            let mut seen = [false; names::COUNT + 1];
            let mut last_parts = [NO_PART; names::COUNT + 1];
            let mut frmsizecod = 0;
            let mut cplbegf = 0;
            let values = VALUES.map(|(name, _)| number(name));
            let (size, begin, end) = (number("frmsizecod"), number("cplbegf"), number("cplendf"));
            let strategy = number("chexpstr");
            for row in rows {
                seen[row[row_at::NAME] as usize] = true;
                let last_part = &mut last_parts[row[row_at::NAME] as usize];
                *last_part = row[row_at::PART].max(*last_part);
                match row[row_at::NAME] {
                    n if n == size => frmsizecod = row[row_at::VALUE],
                    n if n == begin => cplbegf = row[row_at::VALUE],
                    n if n == end => goals.push((RANGE, cplbegf, row[row_at::VALUE])),
                    n if n == strategy => {
                        goals.push((STRATEGY, row[row_at::BLOCK], row[row_at::VALUE]))
                    }
                    n if values.contains(&n) => goals.push((VALUE, n, row[row_at::VALUE])),
                    _ => {}
                }
            }
            let names = (1..=names::COUNT).filter(|&n| seen[n]);
            goals.extend(names.map(|n| (NAME, n as i32, 0)));
            let parted = (0..).zip(last_parts).filter(|(_, last)| *last != NO_PART);
            goals.extend(parted.map(|(n, last)| (LAST_PART, n, last)));
            goals.push((MODE, s.acmod.into(), s.lfeon.into()));
            goals.push((BSID, s.bsid.into(), 0));
            goals.push((SIZE, s.fscod.into(), frmsizecod));
            goals.push((LEFT_OVER, 0, left_over));
            let features = features::of(&case.call.room[..ROW * answer.rows], s);
            goals.extend(features.into_iter().map(|f| (FEATURE, f, 0)));
            let ample = &case.call.ample;
            let blocks = mantissas::bins(&ample.rows, &ample.pointers).expect("agreed");
            let shown = blocks.iter().flat_map(|block| mantissas::shown(block));
            goals.extend(shown.map(|(what, of)| (MANTISSAS, what, of)));
            if case.place > 0 {
                goals.push((PLACE, 1, 0));
            } else if case.input.len() > s.bytes {
                goals.push((PLACE, 0, 0));
            }
        }
        Err(no) => {
            let last = rows
                .last()
                .map_or([0, -1], |row| [row[row_at::NAME], row[row_at::BLOCK]]);
            goals.push((REFUSAL, refusal, 0));
            goals.push((SITE, refusal, last[0]));
            goals.push((IN_BLOCK, refusal, last[1]));
            let value = judged(
                refusal,
                &case.call.room[..ROW * answer.rows],
                rest.unwrap_or(0),
            );
            goals.extend(value.map(|value| (JUDGED, refusal, value)));
            match refusal {
                1 => match rest {
                    None => goals.push((PLACE, 5, 0)),
                    Some(0) if case.place > 0 => goals.push((PLACE, 4, 0)),
                    Some(_) if case.place > 0 => goals.push((PLACE, 3, 0)),
                    _ => {}
                },
                4 if case.place > 0 => goals.push((PLACE, 2, 0)),
                6 => {
                    let Unfit { name, block } = no.unfit;
                    goals.push((SIX, name, 0));
                    goals.push((SIX_IN, block, sort(name)));
                }
                7 => {
                    goals.push((SEVEN, case.call.ample.rows[ROW * answer.rows], 0));
                    goals.push((LEFT_OVER, 1, left_over));
                    let ample = &case.call.ample.answer;
                    if ample.verdict.is_ok() && ample.rows == answer.rows + 1 {
                        goals.push((ONE_ROW_SHORT, 0, 0));
                    }
                }
                17 => goals.push((OUTSIDE, i32::from(!no.text.contains('-')), 0)),
                _ => {}
            }
        }
    }
    goals
}

/// What was judged, for refusals that several values lead to; `rest` is the input's length.
fn judged(refusal: i32, rows: &[i32], rest: usize) -> Option<i32> {
    let value = |from_end: usize| rows[rows.len() - ROW * from_end + row_at::VALUE];
    let of_last = |name: &str| {
        let number = number(name);
        rows.chunks(ROW)
            .rev()
            .take_while(move |r| r[row_at::BLOCK] == rows[rows.len() - ROW + row_at::BLOCK])
            .filter(move |r| r[row_at::NAME] == number)
    };
    match refusal {
        // Which byte of the sync word is wrong.
        2 => Some(i32::from(value(1) >> 8 != 0x0B) + 2 * i32::from(value(1) & 0xFF != 0x77)),
        // Which code has no size.
        3 => Some(i32::from(value(2) == 3) + 2 * i32::from(value(1) >= 38)),
        // How little is missing: one byte, all but the header, or something else.
        4 => {
            let words = ac3_frame_words(value(2) as usize, value(1) as usize);
            let missing = 2 * words.expect("a size") - rest;
            Some(i32::from(missing == 1) + 2 * i32::from(rest == 6))
        }
        5 | 11 | 16 => Some(value(1)),
        // By how much, and how many channels are coupled.
        9 => Some(value(2) - value(1)),
        10 => Some(of_last("chincpl").map(|r| r[row_at::VALUE]).sum()),
        _ => None,
    }
}

/// Where a refusal other than 6 and 7 can stand: its number and the last row's name.
pub const SITES: [(i32, &[&str]); 21] = [
    (1, &[]),
    (2, &["syncword"]),
    (3, &["frmsizecod"]),
    (4, &["frmsizecod"]),
    (5, &["bsid"]),
    (8, &["cplstre"]),
    (9, &["cplendf"]),
    (10, &["cplendf", "cplbndstrc"]),
    (11, &["chbwcod"]),
    (12, &["chexpstr", "lfeexpstr", "chbwcod"]),
    (13, &["chexpstr", "lfeexpstr", "chbwcod"]),
    (
        14,
        &["chexpstr", "lfeexpstr", "chbwcod", "cplexps", "gainrng"],
    ),
    (15, &["gainrng"]),
    (16, &["cplexps", "exps[ch]", "lfeexps"]),
    (17, &["cplexps", "exps[ch]", "lfeexps"]),
    (18, &["cpldeltbae", "deltbae"]),
    (19, &["cpldeltbae", "deltbae"]),
    (20, &["skiple", "skipfld"]),
    (21, &["rematstr"]),
    (22, &["baie"]),
    (23, &["snroffste"]),
];

/// Refusal 6 cannot stand at the names up to this one: the longest header has 665 bits, the
/// shortest frame 1,024.
pub const LAST_OF_HEADER: &str = "addbsi";

/// The goals that a run of the generator must reach.
pub fn required() -> Vec<Goal> {
    let mut goals: Vec<Goal> = Vec::new();
    let count = names::COUNT as i32;
    goals.extend((1..=count).map(|n| (NAME, n, 0)));
    goals.extend((1..=REFUSALS).map(|n| (REFUSAL, n, 0)));
    for (refusal, after) in SITES {
        goals.extend(after.iter().map(|name| (SITE, refusal, number(name))));
    }
    goals.extend((number(LAST_OF_HEADER) + 1..=count).map(|n| (SIX, n, 0)));
    let sorts = SORTS.len() as i32;
    goals.extend((0..6 * sorts).map(|n| (SIX_IN, n / sorts, n % sorts)));
    goals.extend((1..=count).map(|n| (SEVEN, n, 0)));
    goals.push((ONE_ROW_SHORT, 0, 0));
    goals.extend([(OUTSIDE, 0, 0), (OUTSIDE, 1, 0)]);
    goals.extend((0..16).map(|m| (MODE, m / 2, m % 2)));
    goals.extend((0..9).map(|b| (BSID, b, 0)));
    for (fscod, code) in (0..4).flat_map(|f| (0..64).map(move |c| (f, c))) {
        if ac3_frame_words(fscod as usize, code as usize).is_some() {
            goals.push((SIZE, fscod, code));
        }
    }
    // Reuse in block 0 is always refused.
    goals.extend((1..24).map(|s| (STRATEGY, s / 4, s % 4)));
    goals.extend((0..FEATURES.len() as i32).map(|f| (FEATURE, f, 0)));
    goals.extend(mantissas::sought().map(|(what, of)| (MANTISSAS, what, of)));
    goals.extend((0..PLACES.len() as i32).map(|p| (PLACE, p, 0)));
    goals.extend(last_parts().filter(|(_, n, last)| last + 1 == names::of(*n).part.most()));
    let row = ROW as i32;
    goals.extend((0..2 * row).map(|n| (LEFT_OVER, n / row, n % row)));
    goals
}

/// The goals that a run should reach but that take many frames.
pub fn wished() -> Vec<Goal> {
    let mut goals: Vec<Goal> = Vec::new();
    let ranges = (0..16).flat_map(|b| (0..16).map(move |e| (b, e)));
    goals.extend(
        ranges
            .filter(|(b, e)| *b <= e + 2)
            .map(|(b, e)| (RANGE, b, e)),
    );
    for (name, values) in VALUES {
        goals.extend((0..values).map(|v| (VALUE, number(name), v)));
    }
    goals.extend(last_parts());
    let bsids = (9..32).map(|v| (5, v));
    let distances = (3..16).map(|v| (9, v));
    let others = [
        (2, 1),
        (2, 2),
        (2, 3),
        (3, 1),
        (3, 2),
        (3, 3),
        (4, 0),
        (4, 1),
        (4, 2),
        (10, 0),
        (10, 1),
        (11, 61),
        (11, 62),
        (11, 63),
        (16, 125),
        (16, 126),
        (16, 127),
    ];
    let judged = bsids.chain(distances).chain(others);
    goals.extend(judged.map(|(refusal, value)| (JUDGED, refusal, value)));
    goals
}

/// Says what a goal is.
pub fn say(goal: &Goal) -> String {
    let (kind, a, b) = *goal;
    let name = |n: i32| if n == 0 { "no row" } else { names::of(n).text };
    match kind {
        NAME | SIX | SEVEN => format!("{kind}: {} {}", a, name(a)),
        SITE => format!("refusal {a} after {}", name(b)),
        SIX_IN => format!("{kind} {a} at {}", SORTS[b as usize]),
        VALUE => format!("{} {b}", name(a)),
        LAST_PART => format!("part {b} of {} as the last", name(a)),
        FEATURE => FEATURES[a as usize].into(),
        MANTISSAS => mantissas::say(a, b),
        PLACE => PLACES[a as usize].into(),
        REFUSAL | BSID | OUTSIDE | CORNER => format!("{kind} {a}"),
        ONE_ROW_SHORT => kind.into(),
        _ => format!("{kind}: {a} {b}"),
    }
}

/// What docs/FORMAT.md asks to run and compare, by name; then each of the four flags missing in block 0, refusal 6 at each sort of
/// element, in block 0 and in block 5, and the corner cases of parts, of coordinates and of groups across slots.
pub fn by_name() -> [(&'static str, Goal); 32] {
    let corners = corners::all();
    let corner = |name: &str| {
        let at = corners.iter().position(|corner| corner.name == name);
        (CORNER, at.expect("a corner case") as i32, 0)
    };
    [
        ("chbwcod 60", (VALUE, number("chbwcod"), 60)),
        ("chbwcod 61", (JUDGED, 11, 61)),
        (ONE_ROW_SHORT, (ONE_ROW_SHORT, 0, 0)),
        ("frame one byte short", (JUDGED, 4, 1)),
        ("zero-width mantissas", (FEATURE, 0, 0)),
        ("cplstre 0 in block 0", (SITE, 8, number("cplstre"))),
        ("rematstr 0 in block 0", (SITE, 21, number("rematstr"))),
        ("baie 0 in block 0", (SITE, 22, number("baie"))),
        ("snroffste 0 in block 0", (SITE, 23, number("snroffste"))),
        ("a field of block 0 past the frame", (SIX_IN, 0, 0)),
        ("block 0's skip field past the frame", (SIX_IN, 0, 1)),
        ("block 0's mantissas past the frame", (SIX_IN, 0, 2)),
        ("a field of block 5 past the frame", (SIX_IN, 5, 0)),
        ("block 5's skip field past the frame", (SIX_IN, 5, 1)),
        ("block 5's mantissas past the frame", (SIX_IN, 5, 2)),
        ("18 bands of coordinates", corner("bands-eighteen")),
        ("one band", corner("bands-one")),
        ("D15 groups to the end", corner("groups-to-the-end")),
        ("eight segments in every slot", corner("segments-eight")),
        ("a room of 9 n + 8 numbers", corner("one-number-too-few")),
        (
            "channel 3 joins in block 2 with cplcoe 0",
            corner("coordinates-of-a-late-channel"),
        ),
        (
            "a channel comes back with cplcoe 0",
            corner("coordinates-of-a-channel-that-comes-back"),
        ),
        (
            "coupling off and on again",
            corner("coordinates-through-pause"),
        ),
        (
            "cplcoe 0 in the first coupled block, 1 in the next",
            corner("coordinates-a-block-late"),
        ),
        ("no coupling at all", corner("plain")),
        (
            "coordinates with acmod 0",
            corner("coordinates-two-programmes"),
        ),
        (
            "a group from a channel into the next",
            corner("group-into-the-next-channel"),
        ),
        (
            "a group from a channel into coupling",
            corner("group-into-coupling"),
        ),
        ("a group from a channel into LFE", corner("group-into-lfe")),
        (
            "a group from coupling into LFE",
            corner("group-from-coupling-into-lfe"),
        ),
        (
            "a slot with members of other slots' groups alone",
            corner("slot-of-members-alone"),
        ),
        ("all slots silent", corner("slots-all-silent")),
    ]
}

/// How often each goal was reached.
#[derive(Default)]
pub struct Counts(pub BTreeMap<Goal, usize>);

impl Counts {
    pub fn add(&mut self, case: &Case<'_>) {
        let mut goals = reached(case);
        goals.sort();
        goals.dedup();
        for goal in goals {
            *self.0.entry(goal).or_default() += 1;
        }
    }

    pub fn of(&self, goal: Goal) -> usize {
        self.0.get(&goal).copied().unwrap_or(0)
    }

    pub fn missed(&self, goals: &[Goal]) -> Vec<Goal> {
        goals.iter().copied().filter(|g| self.of(*g) == 0).collect()
    }
}
