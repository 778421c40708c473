//! The bits of a frame's mantissas by block and slot, a second time: from the words of their description, where the cut copy counts them as
//! the published walk goes.
//!
//! The rows of an accepted frame tell which slots a block has, in which order, and how many bins each; so they tell which slot each pointer
//! of the walk is of. Then all groups of a block are made at once, and each is counted to the slot of its first member. The seven counts of
//! a block sum to the width of its mantissas, and a slot that is not in use has 0.

use crate::cut::blocks::{CPL, LFE, SLOTS};
use crate::layout::{row_at, ROW};
use crate::names::number;
use crate::tables::NFCHANS;

/// By block and slot.
pub type Bits = [[usize; SLOTS]; 6];

/// A pointer whose mantissas stand in groups, the members of a group, and the bits that they take together.
struct Grouped {
    pointer: u8,
    members: usize,
    bits: usize,
}

const fn grouped(pointer: u8, members: usize, bits: usize) -> Grouped {
    Grouped {
        pointer,
        members,
        bits,
    }
}

const GROUPED: [Grouped; 3] = [grouped(1, 3, 5), grouped(2, 3, 7), grouped(4, 2, 7)];

/// The bits of one mantissa under a pointer that stands alone (6.3.5).
fn alone(pointer: u8) -> usize {
    match pointer {
        3 => 3,
        5 => 4,
        6..=13 => usize::from(pointer) - 1,
        14 => 14,
        15 => 16,
        _ => 0,
    }
}

/// One mantissa: the slot that it is of, and its pointer.
#[derive(Clone, Copy, Debug, PartialEq, Eq)]
pub struct Bin {
    pub slot: usize,
    pub pointer: u8,
}

/// The slots of each block in the order of their mantissas, each with how many bins it has, as the rows of an accepted frame tell it.
fn slots(rows: &[i32]) -> Vec<Vec<(usize, usize)>> {
    let [acmod, lfeon, mantissas] = ["acmod", "lfeon", "mantissas"].map(number);
    let [cplinu, chincpl, cplbegf] = ["cplinu", "chincpl", "cplbegf"].map(number);
    let [cplendf, chbwcod] = ["cplendf", "chbwcod"].map(number);
    let (mut channels, mut lfe) = (0, false);
    let (mut coupled, mut begin, mut end) = ([false; 5], 0, 0);
    let mut bandwidth = [0; 5];
    let mut blocks = Vec::new();
    for row in rows.chunks(ROW) {
        let (value, index) = (row[row_at::VALUE] as usize, row[row_at::INDEX] as usize);
        match row[row_at::NAME] {
            name if name == acmod => channels = NFCHANS[value],
            name if name == lfeon => lfe = value == 1,
            name if name == cplinu => coupled = [false; 5],
            name if name == chincpl => coupled[index] = value == 1,
            name if name == cplbegf => begin = value,
            name if name == cplendf => end = value,
            name if name == chbwcod => bandwidth[index] = value,
            name if name == mantissas => {
                let first_coupled = coupled.iter().position(|coupled| *coupled);
                let mut block = Vec::new();
                for channel in 0..channels {
                    let bins = match coupled[channel] {
                        true => 37 + 12 * begin,
                        false => 37 + 3 * (bandwidth[channel] + 12),
                    };
                    block.push((channel, bins));
                    if first_coupled == Some(channel) {
                        block.push((CPL, 12 * (end + 3 - begin)));
                    }
                }
                block.extend(lfe.then_some((LFE, 7)));
                blocks.push(block);
            }
            _ => {}
        }
    }
    blocks
}

/// The mantissas of each block of an accepted frame, in their order: its rows, and the pointers that the walk met.
pub fn bins(rows: &[i32], pointers: &[u8]) -> Result<Vec<Vec<Bin>>, String> {
    let blocks = slots(rows);
    let of_rows: usize = blocks.iter().flatten().map(|(_, bins)| bins).sum();
    if (blocks.len(), of_rows) != (6, pointers.len()) {
        let (n, met) = (blocks.len(), pointers.len());
        return Err(format!(
            "{n} blocks with {of_rows} mantissas, {met} walked over"
        ));
    }
    let mut rest = pointers.iter();
    let slots_of = |block: &Vec<(usize, usize)>| {
        let slots = block.iter();
        let slots = slots.flat_map(|(slot, bins)| std::iter::repeat_n(*slot, *bins));
        slots
            .zip(&mut rest)
            .map(|(slot, pointer)| Bin {
                slot,
                pointer: *pointer,
            })
            .collect()
    };
    Ok(blocks.iter().map(slots_of).collect())
}

/// Each group of a block's mantissas, as its members' slots in their order: every so many mantissas under the pointer, and what is left at
/// the block's end.
fn each_group(block: &[Bin], mut each: impl FnMut(&Grouped, &[usize])) {
    for grouped in &GROUPED {
        let under = block.iter().filter(|bin| bin.pointer == grouped.pointer);
        let slots: Vec<usize> = under.map(|bin| bin.slot).collect();
        let groups = slots.chunks(grouped.members);
        groups.for_each(|group| each(grouped, group));
    }
}

/// The bits of a block's mantissas by slot.
pub fn bits(block: &[Bin]) -> [usize; SLOTS] {
    let mut bits = [0; SLOTS];
    for bin in block {
        bits[bin.slot] += alone(bin.pointer);
    }
    each_group(block, |grouped, group| bits[group[0]] += grouped.bits);
    bits
}

/// Holds the bits that were told of an accepted frame against its rows and the pointers of its walk.
pub fn check(rows: &[i32], pointers: &[u8], told: &Bits) -> Result<(), String> {
    let mantissas = number("mantissas");
    let widths = rows
        .chunks(ROW)
        .filter(|row| row[row_at::NAME] == mantissas)
        .map(|row| row[row_at::WIDTH] as usize);
    for (((block, bins), told), width) in (0..).zip(bins(rows, pointers)?).zip(told).zip(widths) {
        let again = bits(&bins);
        if *told != again {
            return Err(format!("block {block}: {told:?}, by its groups {again:?}"));
        }
        let sum: usize = told.iter().sum();
        if sum != width {
            return Err(format!("block {block}: {told:?} sum to {sum}, not {width}"));
        }
        let unused = |slot: &usize| bins.iter().all(|bin| bin.slot != *slot);
        if (0..SLOTS).filter(unused).any(|slot| told[slot] != 0) {
            return Err(format!("block {block}: {told:?} with an unused slot"));
        }
    }
    Ok(())
}

/// What the mantissas of a block may show, and of what each is sought: of groups under these pointers, of slots of these `SORTS`, or of
/// nothing more (0).
pub const SHOWN: [(&str, &[i32]); 10] = [
    (
        "a group opened in one channel and finished in the next",
        &[1, 2, 4],
    ),
    (
        "a group opened in a channel and finished in coupling",
        &[1, 2, 4],
    ),
    (
        "a group opened in coupling and finished in a channel",
        &[1, 2, 4],
    ),
    (
        "a group opened in a channel and finished in LFE",
        &[1, 2, 4],
    ),
    ("a group opened in coupling and finished in LFE", &[1]),
    ("a group with a member in each of three slots", &[1, 2]),
    ("a group that the block's end leaves open", &[1, 2, 4]),
    (
        "a slot with nothing but members of groups opened elsewhere",
        &[0, 1, 2],
    ),
    ("a silent slot beside one that is not", &[0, 1, 2]),
    ("all slots silent, coupling and LFE in use", &[0]),
];
const INTO_THE_NEXT: i32 = 0;
const INTO_COUPLING: i32 = 1;
const FROM_COUPLING: i32 = 2;
const INTO_LFE: i32 = 3;
const FROM_COUPLING_INTO_LFE: i32 = 4;
const OF_THREE_SLOTS: i32 = 5;
const LEFT_OPEN: i32 = 6;
const MEMBERS_ALONE: i32 = 7;
const SILENT: i32 = 8;
const ALL_SILENT: i32 = 9;

/// The sorts of slots.
pub const SORTS: [&str; 3] = ["a channel", "coupling", "LFE"];

fn sort(slot: usize) -> i32 {
    match slot {
        CPL => 1,
        LFE => 2,
        _ => 0,
    }
}

/// All that is sought, as places in `SHOWN` with what it is of.
pub fn sought() -> impl Iterator<Item = (i32, i32)> {
    (0..).zip(SHOWN).flat_map(|(what, (_, sought))| {
        let each = sought.iter();
        each.map(move |of| (what, *of))
    })
}

/// Says one of them.
pub fn say(what: i32, of: i32) -> String {
    let (shown, _) = SHOWN[what as usize];
    match what {
        ALL_SILENT => shown.into(),
        MEMBERS_ALONE | SILENT => format!("{shown}: {}", SORTS[of as usize]),
        _ => format!("{shown}, pointers {of}"),
    }
}

/// What a whole group shows, by the slots of its first and its last member.
fn across(first: usize, last: usize) -> Option<i32> {
    match (sort(first), sort(last)) {
        (0, 0) if last == first + 1 => Some(INTO_THE_NEXT),
        (0, 1) => Some(INTO_COUPLING),
        (1, 0) => Some(FROM_COUPLING),
        (0, 2) => Some(INTO_LFE),
        (1, 2) => Some(FROM_COUPLING_INTO_LFE),
        _ => None,
    }
}

/// What a block's mantissas show, as places in `SHOWN` with what it is of.
pub fn shown(block: &[Bin]) -> Vec<(i32, i32)> {
    let mut shown = Vec::new();
    each_group(block, |grouped, group| {
        let of = i32::from(grouped.pointer);
        if group.len() < grouped.members {
            shown.push((LEFT_OPEN, of));
            return;
        }
        shown.extend(across(group[0], group[group.len() - 1]).map(|what| (what, of)));
        if let [first, second, third] = *group {
            if first != second && second != third {
                shown.push((OF_THREE_SLOTS, of));
            }
        }
    });
    let (mut used, mut loud) = ([false; SLOTS], [false; SLOTS]);
    for bin in block {
        used[bin.slot] = true;
        loud[bin.slot] |= bin.pointer != 0;
    }
    let bits = bits(block);
    for slot in (0..SLOTS).filter(|slot| used[*slot]) {
        if loud[slot] && bits[slot] == 0 {
            shown.push((MEMBERS_ALONE, sort(slot)));
        }
        if !loud[slot] && loud.contains(&true) {
            shown.push((SILENT, sort(slot)));
        }
    }
    if used[CPL] && used[LFE] && !loud.contains(&true) {
        shown.push((ALL_SILENT, 0));
    }
    shown
}
