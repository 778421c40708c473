//! The corner cases: for each point at which the standard, the contract (docs/FORMAT.md) and the Rust
//! differ, or one of them says nothing, the smallest input that shows it; and one for each place a refusal has.
//!
//! corners.txt is printed from this list, and docs/DIFFERENCES.md cites it by name.

use crate::agree::{Judge, Room};
use crate::bits;
use crate::craft::{sized, small, Asked, Rule};
use crate::cut::{answer, Unfit, MANY_ROWS};
use crate::hex;
use crate::layout::{row_at, ROW};
use crate::listing::{self, last_line};
use crate::names::number;

pub struct Corner {
    pub name: &'static str,
    pub what: &'static str,
    pub capture: Vec<u8>,
    pub place: usize,
    /// Room in rows; none: ample. And the numbers beyond them, too few for a row more.
    pub rows: Option<usize>,
    pub left_over: usize,
    /// The number that docs/FORMAT.md gives, 0 for acceptance.
    pub number: u32,
    /// What does not fit, at 6.
    pub unfit: Unfit,
}

impl Corner {
    fn rows(mut self, rows: usize) -> Self {
        self.rows = Some(rows);
        self
    }

    fn left_over(mut self, numbers: usize) -> Self {
        self.left_over = numbers;
        self
    }

    fn place(mut self, place: usize) -> Self {
        self.place = place;
        self
    }

    /// The field, span or mantissas of the block do not fit.
    fn unfit(mut self, name: &str, block: i32) -> Self {
        let name = number(name);
        self.unfit = Unfit { name, block };
        self
    }

    /// The room that it is called with.
    pub fn room(&self) -> Room {
        let left_over = self.left_over;
        match self.rows {
            Some(rows) => Room::Numbers(ROW * rows + left_over),
            None => Room::Sufficient { left_over },
        }
    }

    /// The input: its bytes up to the last that is not 0, and how many there are in all.
    pub fn input(&self) -> String {
        let used = self
            .capture
            .iter()
            .rposition(|b| *b != 0)
            .map_or(0, |at| at + 1);
        let digits = hex::of(&self.capture[..used]);
        let n = self.capture.len();
        match n - used {
            0 => format!("{digits} ({n} bytes)"),
            _ => format!("{digits} and zeros ({n} bytes)"),
        }
    }

    /// The input and the answer, as corners.txt and docs/DIFFERENCES.md hold them.
    pub fn entry(&self, judge: &mut Judge) -> String {
        let call = judge.call(&self.capture, self.place, self.room());
        let mut how = String::new();
        if self.place > 0 {
            how += &format!(" at byte {}", self.place);
        }
        if let Some(rows) = self.rows {
            how += &format!(" with {rows} rows");
        }
        if self.left_over > 0 {
            how += &format!(" and {} numbers", self.left_over);
        }
        format!(
            "{}{how}: {}\n{}\n",
            self.name,
            last_line(&call.answer),
            self.input()
        )
    }
}

fn corner(name: &'static str, number: u32, capture: Vec<u8>, what: &'static str) -> Corner {
    Corner {
        name,
        what,
        capture,
        place: 0,
        rows: None,
        left_over: 0,
        number,
        unfit: Unfit::NONE,
    }
}

/// Rows that the capture's parse writes with ample room.
fn rows_of(capture: &[u8]) -> usize {
    answer(capture, 0, &mut vec![0; MANY_ROWS * ROW]).rows
}

/// Two channels, both coupled from block 0 on over sub-band `begin` alone (at least 2); silent.
fn pair(begin: u32, rule: impl Fn(&Asked) -> Option<u32>) -> Vec<u8> {
    small(&|a| rule(a).or_else(|| coupled(2, begin, a)))
}

fn coupled(acmod: u32, begin: u32, a: &Asked) -> Option<u32> {
    match a.name {
        "acmod" => Some(acmod),
        "cplinu" if a.block == 0 => Some(1),
        "chincpl" => Some(1),
        "cplbegf" => Some(begin),
        "cplendf" => Some(begin - 2),
        _ => None,
    }
}

/// Three channels, 0 and 1 coupled in block 0; in block 1 the rule's strategy with all coupled.
fn trio(begin: u32, rule: impl Fn(&Asked) -> Option<u32>) -> Vec<u8> {
    small(&|a| {
        rule(a).or_else(|| match (a.name, a.block, a.index) {
            ("cplstre" | "cplinu", 1, _) => Some(1),
            ("chincpl", 0, 2) => Some(0),
            _ => coupled(3, begin, a),
        })
    })
}

/// Two programmes with all that a header can have, 665 bits.
fn longest_header(rule: Rule<'_>) -> Vec<u8> {
    small(&|a| {
        rule(a).or(match a.name {
            "acmod" => Some(0),
            "compre" | "langcode" | "audprodie" | "compr2e" | "langcod2e" | "audprodi2e" => Some(1),
            "timecod1e" | "timecod2e" | "addbsie" => Some(1),
            "addbsil" => Some(63),
            _ => None,
        })
    })
}

/// One channel whose audio ends at the bit, by its bandwidth and block 0's skip field.
fn ending_at(bit: usize) -> Vec<u8> {
    // Each four steps of bandwidth take one group of exponents more, 7 bits.
    for chbwcod in (1..32).step_by(4) {
        let rule = |a: &Asked, bytes: u32| match (a.name, a.block) {
            ("chbwcod", _) => Some(chbwcod),
            ("skiple", 0) => Some(1),
            ("skipl", 0) => Some(bytes),
            _ => None,
        };
        let empty = small(&|a| rule(a, 0));
        let end = answer(&empty, 0, &mut vec![0; MANY_ROWS * ROW]).bit;
        if (bit - end).is_multiple_of(8) {
            return small(&|a| rule(a, ((bit - end) / 8) as u32));
        }
    }
    unreachable!("eight groups give each remainder")
}

/// Two channels, coupled over 37 to 73 and loud, with coupling delta as the rule says.
fn coupling_delta(rule: impl Fn(&Asked) -> Option<u32>) -> Vec<u8> {
    sized(0, 12, &|a| {
        rule(a).or_else(|| match (a.name, a.block) {
            ("cplbegf" | "cplendf", _) => Some(0),
            ("cplbndstrc", _) => Some(1),
            ("csnroffst", _) => Some(10),
            ("cplfgaincod" | "fgaincod", _) => Some(4),
            ("cplleake", 0) => Some(1),
            ("deltbaie", 0) => Some(1),
            ("cpldeltbae", 0) => Some(1),
            ("cpldeltlen", _) => Some(1),
            _ => coupled(2, 2, a),
        })
    })
}

/// The frame with every bit of its mantissas set.
fn mantissas_of_ones(mut frame: Vec<u8>) -> Vec<u8> {
    let mut room = vec![0; MANY_ROWS * ROW];
    let rows = answer(&frame, 0, &mut room).rows;
    let mantissas = number("mantissas");
    for row in room
        .chunks(ROW)
        .take(rows)
        .filter(|r| r[row_at::NAME] == mantissas)
    {
        for at in row[row_at::POS]..row[row_at::POS] + row[row_at::WIDTH] {
            bits::set(&mut frame, at as usize, 1, 1);
        }
    }
    frame
}

/// The most rows that a frame has: proved of every frame (crates/ac3/specs/RowBound.antt), and reached by `most_rows`.
pub const MOST_ROWS: usize = 4067;

/// Everything that can be sent is sent in every block, in as many fields as it can be.
fn most_rows() -> Vec<u8> {
    sized(2, 36, &|a| match a.name {
        "bsid" => Some(6),
        "acmod" => Some(7),
        "lfeon" | "compre" | "langcode" | "audprodie" | "xbsi1e" | "xbsi2e" | "addbsie" => Some(1),
        "dynrnge" | "cplstre" | "cplinu" | "cplcoe" | "cplexpstr" | "chexpstr" | "lfeexpstr" => {
            Some(1)
        }
        "baie" | "snroffste" | "cplleake" | "deltbaie" | "cpldeltbae" | "deltbae" | "skiple" => {
            Some(1)
        }
        "chincpl" => Some((a.index < 2).into()),
        "cplendf" => Some(15),
        "chbwcod" => Some(60),
        "cpldeltnseg" | "deltnseg" => Some(7),
        _ => None,
    })
}

pub fn all() -> Vec<Corner> {
    let mut list = Vec::new();
    list.extend(header());
    list.extend(coupling_strategy());
    list.extend(exponents());
    list.extend(reuse());
    list.extend(allocation());
    list.extend(tail_and_room());
    list.extend(parts());
    list.extend(groups());
    list
}

/// As many parts as there can be, and as few: each of them has its own number as value, as far as the width goes.
fn parts() -> Vec<Corner> {
    // The two channels of a pair coupled over all 18 sub-bands, merged or not.
    let coordinates = |merged: u32| {
        pair(2, |a| match a.name {
            "cplbegf" => Some(0),
            "cplendf" => Some(15),
            "cplbndstrc" => Some(merged),
            "cplcoe" => Some((a.block == 0).into()),
            "cplcoexp" | "cplcomant" => Some(a.nth as u32 % 16),
            _ => None,
        })
    };
    let groups = sized(0, 8, &|a| match (a.name, a.index) {
        ("lfeon", _) => Some(1),
        ("chincpl", 2) => Some(0),
        ("cplbegf", _) => Some(0),
        ("cplendf", _) => Some(15),
        ("chbwcod", _) => Some(60),
        ("cplexpstr" | "chexpstr", _) if a.block == 0 => Some(1),
        _ => coupled(3, 2, a),
    });
    let segments = sized(0, 4, &|a| match a.name {
        "deltbaie" => Some((a.block == 0).into()),
        "cpldeltbae" | "deltbae" => Some(1),
        "cpldeltnseg" | "deltnseg" => Some(7),
        "cpldeltoffst" | "deltoffst" | "cpldeltlen" | "deltlen" | "cpldeltba" | "deltba" => {
            Some(a.nth as u32)
        }
        _ => coupled(7, 2, a),
    });
    let plain = small(&|_| None);
    let rows = rows_of(&plain);
    vec![
        corner(
            "bands-eighteen",
            0,
            coordinates(0),
            "coordinates of 18 bands, as many as there can be",
        ),
        corner(
            "bands-one",
            0,
            coordinates(1),
            "18 sub-bands merged into one band",
        ),
        corner(
            "groups-to-the-end",
            0,
            groups,
            "D15 up to bin 253: 72 groups of coupling, 84 of the channel that is not coupled; 12 of the others, 2 of LFE",
        ),
        corner(
            "segments-eight",
            0,
            segments,
            "eight delta segments for coupling and for each of five channels",
        ),
        corner(
            "one-number-too-few",
            7,
            plain,
            "all but one of the numbers that the rows take: none for the last mantissas",
        )
        .rows(rows - 1)
        .left_over(ROW - 1),
    ]
}

/// Groups of mantissas across slots: in block 0 every pointer is 1 or 0, and the other blocks are silent.
fn groups() -> Vec<Corner> {
    // A channel of level exponents has 49 pointers 1 then: sixteen groups, and a seventeenth is opened. Coupling has 12, LFE 7.
    let loud = |a: &Asked| match (a.name, a.block) {
        ("fgaincod" | "cplfgaincod" | "lfefgaincod", _) => Some(7),
        ("csnroffst", 0) | ("snroffste", 1) | ("cplleake", 0) => Some(1),
        ("cplfsnroffst", 0) => Some(15),
        _ => None,
    };
    let with_lfe = |a: &Asked| (a.name == "lfeon").then_some(1).or_else(|| loud(a));
    // Exponents 15, 17, 19, 21, then 23 on: nothing of the channel is heard.
    let second_silent = |a: &Asked| match (a.name, a.index, a.nth) {
        ("exps[ch][0]", 1, _) => Some(15),
        ("exps[ch]", 1, 0) => Some(124),
        ("exps[ch]", 1, 1) => Some(112),
        _ => None,
    };
    vec![
        corner(
            "group-into-the-next-channel",
            0,
            small(&|a| (a.name == "acmod").then_some(2).or_else(|| loud(a))),
            "channel 1 has the second and third member of channel 0's last group: 85 and 80 bits",
        ),
        corner(
            "group-into-coupling",
            0,
            pair(2, loud),
            "coupling ends channel 0's last group, and channel 1 that of coupling: 85, 20 and 80 bits",
        ),
        corner(
            "group-into-lfe",
            0,
            small(&with_lfe),
            "LFE ends the channel's last group: 85 and 10 bits",
        ),
        corner(
            "group-from-coupling-into-lfe",
            0,
            pair(2, |a| second_silent(a).or_else(|| with_lfe(a))),
            "the channel between them is silent: 85, 20, 0 and 10 bits",
        ),
        corner(
            "slot-of-members-alone",
            0,
            small(&|a| match (a.name, a.nth) {
                ("lfeexps[0]", _) => Some(5),
                ("lfeexps", 0) => Some(123),
                _ => with_lfe(a),
            }),
            "LFE has two pointers 1, which end the channel's last group: 85 and 0 bits",
        ),
        corner(
            "slots-all-silent",
            0,
            pair(2, |a| (a.name == "lfeon").then_some(1)),
            "two channels, coupling and LFE without a mantissa: 0 bits each",
        ),
    ]
}

fn header() -> Vec<Corner> {
    let example = vec![0x0B, 0x77, 0, 0, 0xC0, 0];
    let plain = small(&|_| None);
    let bsid = |bsid: u32| small(&|a| (a.name == "bsid").then_some(bsid));
    let mut after_one_byte = vec![0];
    after_one_byte.extend(&plain[..127]);
    let mut with_more = plain.clone();
    with_more.extend([0xFF; 3]);
    vec![
        corner(
            "example",
            3,
            example.clone(),
            "the example of docs/FORMAT.md",
        ),
        corner(
            "fscod-waits-for-frmsizecod",
            7,
            example.clone(),
            "fscod 3 is judged after frmsizecod's row",
        )
        .rows(3),
        corner("no-room", 7, example.clone(), "room for no row").rows(0),
        corner(
            "short-and-no-room",
            1,
            example[..5].to_vec(),
            "too short, and room for no row",
        )
        .rows(0),
        corner("at-the-end", 1, example.clone(), "the place is the end").place(6),
        corner(
            "past-the-end",
            1,
            example.clone(),
            "the place is past the end",
        )
        .place(7),
        corner(
            "swapped-bytes",
            2,
            vec![0x77, 0x0B, 0, 0, 0, 0],
            "the sync word with its bytes swapped",
        ),
        corner(
            "size-before-bsid",
            3,
            vec![0x0B, 0x77, 0, 0, 0xC0, 0x58],
            "fscod 3 and bsid 11",
        ),
        corner(
            "length-before-bsid",
            4,
            vec![0x0B, 0x77, 0, 0, 0, 0x58],
            "bsid 11 in an input shorter than the frame",
        ),
        corner(
            "frmsizecod-38",
            3,
            vec![0x0B, 0x77, 0, 0, 38, 0],
            "the first frmsizecod without a size",
        ),
        corner("bsid-9", 5, bsid(9), "the first bsid refused"),
        corner("bsid-0", 0, bsid(0), "the oldest bsid"),
        corner(
            "plain",
            0,
            plain.clone(),
            "nothing but what must be sent; no mantissas; both checksums wrong",
        ),
        corner(
            "one-byte-short",
            4,
            plain[..127].to_vec(),
            "the frame's last byte is missing",
        ),
        corner(
            "one-byte-short-later",
            4,
            after_one_byte,
            "the same at a later place",
        )
        .place(1),
        corner("bytes-after", 0, with_more, "bytes after the frame"),
        corner(
            "reserved-values",
            0,
            small(&|a| match a.name {
                "acmod" => Some(7),
                "bsmod" => Some(7),
                "cmixlev" | "surmixlev" | "roomtyp" => Some(3),
                "langcode" | "audprodie" | "timecod1e" | "timecod2e" => Some(1),
                "mixlevel" => Some(31),
                "timecod1" | "timecod2" => Some(0x3FFF),
                _ => None,
            }),
            "reserved mix levels and room type, dialnorm 0, a time code past 23 hours",
        ),
        corner(
            "reserved-values-bsid-6",
            0,
            small(&|a| match a.name {
                "bsid" => Some(6),
                "acmod" => Some(2),
                "dsurmod" | "dmixmod" | "dheadphonmod" => Some(3),
                "xbsi1e" | "xbsi2e" => Some(1),
                "xbsi2" => Some(255),
                _ => None,
            }),
            "reserved values of dsurmod, dmixmod, dheadphonmod, the surround mix levels and xbsi2",
        ),
        corner(
            "two-programmes",
            0,
            small(&|a| match a.name {
                "acmod" => Some(0),
                "compr2e" | "langcod2e" | "audprodi2e" | "dynrng2e" => Some(1),
                _ => None,
            }),
            "acmod 0: the second programme's fields",
        ),
        corner(
            "longest-header",
            0,
            longest_header(&|_| None),
            "665 bits before block 0",
        ),
    ]
}

fn coupling_strategy() -> Vec<Corner> {
    // Channels 0 to 2 coupled from block 0 on with coordinates, channel 3 from block 2 on.
    let late = |cplcoe: u32| {
        small(&|a| match (a.name, a.block, a.index) {
            ("cplstre" | "cplinu", 2, _) | ("cplcoe", 0, _) => Some(1),
            ("chincpl", 0, 3) => Some(0),
            ("cplcoe", 2, 3) => Some(cplcoe),
            ("chexpstr", 2, 3) => Some(3),
            _ => coupled(6, 5, a),
        })
    };
    vec![
        corner(
            "cplstre-0",
            8,
            small(&|a| a.is("cplstre", 0).then_some(0)),
            "block 0 without coupling strategy",
        ),
        corner(
            "rematstr-0",
            21,
            small(&|a| match a.name {
                "acmod" => Some(2),
                "rematstr" => Some(0),
                _ => None,
            }),
            "block 0 without rematrixing strategy",
        ),
        corner(
            "one-sub-band",
            0,
            pair(5, |_| None),
            "value (f) of docs/FORMAT.md: cplbegf 5, cplendf 3",
        ),
        corner(
            "range-before-channels",
            9,
            pair(5, |a| match (a.name, a.index) {
                ("cplbegf", _) => Some(6),
                ("cplendf", _) => Some(3),
                ("chincpl", 1) => Some(0),
                _ => None,
            }),
            "cplbegf above cplendf + 2 and one coupled channel: 9 is met first",
        ),
        corner(
            "channels-after-structure",
            10,
            pair(5, |a| match (a.name, a.index) {
                ("cplendf", _) => Some(4),
                ("chincpl", 1) => Some(0),
                _ => None,
            }),
            "one coupled channel is judged after the row of cplbndstrc",
        ),
        corner(
            "channels-after-range",
            10,
            pair(5, |a| (a.name == "chincpl" && a.index == 1).then_some(0)),
            "the same where cplbndstrc has no row",
        ),
        corner(
            "coupling-alone",
            10,
            small(&|a| coupled(1, 5, a)),
            "coupling with acmod 1 has fewer than two channels whatever chincpl says",
        ),
        corner(
            "coupling-two-programmes",
            0,
            small(&|a| coupled(0, 5, a)),
            "coupling between two programmes",
        ),
        corner(
            "coordinates-never-sent",
            0,
            pair(5, |_| None),
            "coupling, no cplcoe is 1: accepted, coordinates sent is no",
        ),
        corner(
            "coordinates-of-a-late-channel",
            0,
            late(0),
            "channel 3 joins in block 2 with cplcoe 0: coordinates sent is no",
        ),
        corner(
            "coordinates-of-a-late-channel-sent",
            0,
            late(1),
            "the same with cplcoe 1: coordinates sent is yes",
        ),
        corner(
            "coordinates-a-block-late",
            0,
            pair(5, |a| a.is("cplcoe", 1).then_some(1)),
            "cplcoe 0 in the first coupled block and 1 in the next: coordinates sent is no",
        ),
        corner(
            "coordinates-of-a-channel-that-comes-back",
            0,
            trio(5, |a| match (a.name, a.block, a.index) {
                ("cplcoe", 0, _) | ("chincpl", 0, 2) => Some(1),
                ("chincpl", 1, 2) => Some(0),
                ("cplstre" | "cplinu", 2, _) => Some(1),
                ("chexpstr", 1 | 2, 2) => Some(3),
                _ => None,
            }),
            "channel 2 leaves in block 1 and comes back in block 2 with cplcoe 0: coordinates sent is yes",
        ),
        corner(
            "coordinates-of-another-banding",
            0,
            pair(5, |a| match (a.name, a.block) {
                ("cplcoe", 0) | ("cplstre" | "cplinu", 1) | ("cplbndstrc", 1) => Some(1),
                ("cplendf", _) => Some(4),
                _ => None,
            }),
            "two bands, merged into one in block 1 with cplcoe 0: the coordinates of block 0 count, coordinates sent is yes",
        ),
        corner(
            "coordinates-two-programmes",
            0,
            small(&|a| match (a.name, a.block) {
                ("cplcoe", 0) => Some(1),
                _ => coupled(0, 5, a),
            }),
            "acmod 0, both channels with cplcoe 1 in block 0: coordinates sent is yes",
        ),
        corner(
            "coordinates-of-one-programme",
            0,
            small(&|a| match (a.name, a.block, a.index) {
                ("cplcoe", 0, 0) => Some(1),
                _ => coupled(0, 5, a),
            }),
            "the same of channel 0 alone: coordinates sent is no",
        ),
        corner(
            "coordinates-through-pause",
            0,
            pair(3, |a| match (a.name, a.block) {
                ("cplcoe", 0) | ("cplstre", 1 | 2) | ("cplinu", 2) => Some(1),
                ("chexpstr", 1) => Some(3),
                _ => None,
            }),
            "coupling comes back in block 2 with cplcoe 0: the coordinates of block 0 stay, coordinates sent is yes",
        ),
        corner(
            "banding-kept",
            0,
            pair(5, |a| match (a.name, a.block, a.index) {
                ("phsflginu", 0, _) => Some(1),
                ("cplendf", _, _) => Some(5),
                ("cplbndstrc", 0, 2) => Some(1),
                ("cplcoe", 1, 0) => Some(1),
                _ => None,
            }),
            "block 1 has cplstre 0 and cplcoe 1: two bands and phase flags as in block 0",
        ),
        corner(
            "phase-flags-in-every-block",
            0,
            pair(5, |a| match a.name {
                "cplstre" | "cplinu" | "phsflginu" | "cplcoe" => Some(1),
                _ => None,
            }),
            "a new strategy with phase flags in every block",
        ),
        corner(
            "rematrixing-uncoupled",
            0,
            small(&|a| match (a.name, a.block) {
                ("cplbegf" | "cplendf", _) => Some(0),
                ("cplstre" | "rematstr", 1) => Some(1),
                ("cplinu", 1) => Some(0),
                ("chexpstr", 1) => Some(3),
                _ => coupled(2, 2, a),
            }),
            "two rematrixing flags with cplbegf 0, four when coupling ends",
        ),
        corner(
            "rematrixing-three",
            0,
            small(&|a| match a.name {
                "cplbegf" => Some(2),
                "cplendf" => Some(0),
                _ => coupled(2, 2, a),
            }),
            "three rematrixing flags with cplbegf 2",
        ),
    ]
}

fn exponents() -> Vec<Corner> {
    let bandwidth = |code: u32| small(&|a| (a.name == "chbwcod").then_some(code));
    let start = |cplabsexp: u32, group: u32| {
        pair(5, move |a| match a.name {
            "cplabsexp" => Some(cplabsexp),
            "cplexps" => Some(group),
            _ => None,
        })
    };
    let last_group = |group: u32| {
        small(&|a| match (a.name, a.nth) {
            ("chbwcod", _) => Some(1),
            ("exps[ch]", 6) => Some(group),
            _ => None,
        })
    };
    vec![
        corner(
            "chbwcod-60",
            0,
            bandwidth(60),
            "the widest channel, to bin 253",
        ),
        corner(
            "chbwcod-61",
            11,
            bandwidth(61),
            "the first code refused; its row stands",
        ),
        corner(
            "group-125",
            16,
            small(&|a| (a.name == "exps[ch]").then_some(125)),
            "the first group refused; its row stands",
        ),
        corner(
            "step-below-0",
            17,
            small(&|a| (a.name == "exps[ch]").then_some(61)),
            "exponent 0, then steps 0 0 -1",
        ),
        corner(
            "step-above-24",
            17,
            small(&|a| match a.name {
                "exps[ch][0]" => Some(15),
                "exps[ch]" => Some(124),
                _ => None,
            }),
            "exponent 15, then steps of 2",
        ),
        corner(
            "group-then-step",
            16,
            small(&|a| match (a.name, a.nth) {
                ("exps[ch]", 0) => Some(125),
                ("exps[ch]", _) => Some(61),
                _ => None,
            }),
            "a group above 124 before one that falls below 0: in reading order",
        ),
        corner(
            "step-past-the-end",
            17,
            last_group(60),
            "the last step, for bins 81 to 84, leaves 0 to 24; the channel ends at 76",
        ),
        corner(
            "steps-past-the-end",
            0,
            last_group(64),
            "the same group with a last step of +2: bins past the end, seen by nothing",
        ),
        corner(
            "coupling-start-26",
            0,
            start(13, 12),
            "coupling starts at 26, then -2",
        ),
        corner(
            "coupling-start-26-level",
            17,
            start(13, 62),
            "coupling starts at 26, then 0",
        ),
        corner(
            "coupling-start-28",
            17,
            start(14, 12),
            "coupling starts at 28: refused whatever follows",
        ),
        corner(
            "group-125-lfe",
            16,
            small(&|a| match a.name {
                "lfeon" => Some(1),
                "lfeexps" => Some(125),
                _ => None,
            }),
            "an LFE group above 124",
        ),
        corner(
            "group-125-coupling",
            16,
            start(0, 125),
            "a coupling group above 124",
        ),
        corner(
            "lfe-two-groups",
            0,
            small(&|a| match (a.name, a.block) {
                ("lfeon", _) => Some(1),
                ("lfeexpstr", _) => Some(1),
                _ => None,
            }),
            "LFE exponents sent in every block: D15, one and two groups of three",
        ),
    ]
}

fn reuse() -> Vec<Corner> {
    let silent = |a: &Asked| a.is("chexpstr", 0);
    vec![
        corner("channel-reuse-uncoupled", 12, small(&|a| silent(a).then_some(0)), "chexpstr 0 in block 0, uncoupled: 12, never 14"),
        corner("channel-reuse-coupled", 14, pair(5, |a| silent(a).then_some(0)), "the same, coupled: 14, after the coupling exponents"),
        corner(
            "channel-reuse-in-turn",
            14,
            pair(5, |a| (silent(a) && a.index == 1).then_some(0)),
            "channel 1 reuses in block 0: judged after channel 0's exponents",
        ),
        corner(
            "bandwidths-before-exponents",
            12,
            small(&|a| match (a.name, a.index) {
                ("acmod", _) => Some(2),
                ("chexpstr", 1) if a.block == 0 => Some(0),
                ("exps[ch]", _) => Some(125),
                _ => None,
            }),
            "channel 1 has no bandwidth: judged before channel 0's exponents are read",
        ),
        corner(
            "codes-before-bandwidths",
            11,
            small(&|a| match (a.name, a.index) {
                ("acmod", _) => Some(2),
                ("chexpstr", 0) if a.block == 0 => Some(0),
                ("chbwcod", _) => Some(61),
                _ => None,
            }),
            "channel 0 has no bandwidth, channel 1 one above 60: 11 is met first",
        ),
        corner(
            "bandwidth-missing-lfe",
            12,
            small(&|a| match a.name {
                "lfeon" => Some(1),
                _ => silent(a).then_some(0),
            }),
            "12 after lfeexpstr's row",
        ),
        corner(
            "coupling-reuse-in-block-0",
            13,
            pair(5, |a| (a.name == "cplexpstr").then_some(0)),
            "cplexpstr 0 in block 0",
        ),
        corner(
            "coupling-reuse-lfe",
            13,
            pair(5, |a| match a.name {
                "lfeon" => Some(1),
                "cplexpstr" => Some(0),
                _ => None,
            }),
            "the same after lfeexpstr's row",
        ),
        corner(
            "coupling-reuse-after-bandwidths",
            13,
            trio(5, |a| (a.name == "cplexpstr").then_some(0)),
            "the same after the row of an uncoupled channel's chbwcod",
        ),
        corner(
            "coupling-reuse-other-range",
            13,
            pair(5, |a| match (a.name, a.block) {
                ("cplstre" | "cplinu", 1) => Some(1),
                ("cplendf", 1) => Some(4),
                _ => None,
            }),
            "block 1 has another range and reuses",
        ),
        corner(
            "coupling-reuse-other-banding",
            0,
            pair(5, |a| match (a.name, a.block) {
                ("cplstre" | "cplinu", 1) => Some(1),
                ("cplendf", _) => Some(4),
                ("cplbndstrc", 1) => Some(1),
                _ => None,
            }),
            "block 1 has the same range in other bands and reuses",
        ),
        corner(
            "coupling-reuse-after-pause",
            0,
            pair(3, |a| match (a.name, a.block) {
                ("cplstre", 1 | 2) | ("cplinu", 2) => Some(1),
                ("chexpstr", 1) => Some(3),
                _ => None,
            }),
            "coupling ends in block 1 and comes back over the same range in block 2, its exponents reused",
        ),
        corner(
            "channel-reuse-joining",
            0,
            pair(3, |a| match (a.name, a.block) {
                ("cplinu", 0) => Some(0),
                ("cplstre" | "cplinu", 1) => Some(1),
                ("cplexpstr", 1) => Some(3),
                _ => None,
            }),
            "both channels join coupling in block 1 and reuse: chbwcod 0 and cplbegf 3 both end at 73",
        ),
        corner(
            "channel-reuse-leaving",
            0,
            pair(3, |a| match (a.name, a.block) {
                ("cplinu", 0) => Some(0),
                ("cplstre", 1 | 2) | ("cplinu", 1) => Some(1),
                ("cplexpstr", 1) => Some(3),
                _ => None,
            }),
            "they leave it again in block 2 and reuse: chbwcod is that of block 0",
        ),
        corner(
            "channel-leaving-without-bandwidth",
            12,
            pair(3, |a| a.is("cplstre", 1).then_some(1)),
            "coupling ends in block 1, no bandwidth was sent in this frame",
        ),
        corner(
            "channel-reuse-other-end",
            14,
            trio(4, |_| None),
            "channel 2 (end 73) joins coupling from 85 on and reuses; 14 after chexpstr's row",
        ),
        corner(
            "channel-reuse-other-end-lfe",
            14,
            trio(4, |a| (a.name == "lfeon").then_some(1)),
            "the same after lfeexpstr's row",
        ),
        corner(
            "channel-reuse-other-end-coupling",
            14,
            trio(4, |a| a.is("cplexpstr", 1).then_some(3)),
            "the same after the coupling exponents",
        ),
        corner(
            "channel-reuse-other-end-bandwidth",
            14,
            trio(4, |a| match (a.name, a.block, a.index) {
                ("chincpl", 0, 0) => Some(0),
                ("chincpl", 0, 2) => Some(1),
                ("chincpl", 1, 2) => Some(0),
                ("chexpstr", 1, 2) => Some(3),
                _ => None,
            }),
            "channel 0 joins with another end as channel 2 leaves; 14 after chbwcod's row",
        ),
        corner(
            "lfe-reuse-in-block-0",
            15,
            small(&|a| match a.name {
                "lfeon" => Some(1),
                "lfeexpstr" => Some(0),
                _ => None,
            }),
            "lfeexpstr 0 in block 0: judged after the channels' exponents",
        ),
    ]
}

fn allocation() -> Vec<Corner> {
    let delta = |rule: &dyn Fn(&Asked) -> Option<u32>| {
        small(&|a| rule(a).or_else(|| a.is("deltbaie", 0).then_some(1)))
    };
    // One channel with mantissas, and in block 0 a segment over bands 0 to 14.
    let sent_delta = |rule: &dyn Fn(&Asked) -> Option<u32>| {
        sized(0, 14, &|a| {
            rule(a).or(match (a.name, a.block) {
                ("fgaincod", _) => Some(7),
                ("csnroffst", _) | ("deltbaie" | "deltbae", 0) => Some(1),
                ("deltlen", _) => Some(15),
                _ => None,
            })
        })
    };
    let loud_pair = |rule: &dyn Fn(&Asked) -> Option<u32>| {
        pair(5, |a| {
            rule(a).or_else(|| (a.name == "csnroffst").then_some(1))
        })
    };
    // Exponents 0 and the largest fast gain take mantissas even at the least SNR offset.
    let gains = |fine: [u32; 2]| {
        sized(0, 8, &|a| match a.name {
            "acmod" => Some(2),
            "fgaincod" => Some(7),
            "fsnroffst" => Some(fine[a.index as usize]),
            _ => None,
        })
    };
    let quiet_pause = |cplfsnroffst: u32| {
        sized(0, 8, &|a| match (a.name, a.block) {
            ("cplstre", 1) => Some(1),
            ("chexpstr", 1) => Some(3),
            ("cplleake", 0) => Some(1),
            ("fgaincod", _) => Some(7),
            ("cplfsnroffst", _) => Some(cplfsnroffst),
            _ => coupled(2, 5, a),
        })
    };
    // Coupling from block 0 on but for block 1, with SNR offsets in block 0 alone.
    let offsets_through_pause = |cplfsnroffst: u32| {
        sized(0, 16, &|a| match (a.name, a.block) {
            ("cplstre", 1 | 2) | ("cplinu", 2) => Some(1),
            ("chexpstr", 1) => Some(3),
            ("csnroffst", _) => Some(10),
            ("cplfsnroffst", _) => Some(cplfsnroffst),
            ("cplfgaincod" | "fgaincod", _) => Some(4),
            ("cplleake", 0) => Some(1),
            _ => coupled(2, 3, a),
        })
    };
    let through_pause = |code: u32| {
        coupling_delta(|a| match (a.name, a.block) {
            ("cplstre", 1 | 2) | ("cplinu", 2) => Some(1),
            ("chexpstr", 1 | 2) => Some(3),
            ("csnroffst", _) => Some(8),
            ("cpldeltoffst", _) => Some(31),
            ("cpldeltlen", _) => Some(7),
            ("deltbaie", 2) => Some(1),
            ("cpldeltbae", 2) => Some(code),
            ("deltbae", 2) => Some(0),
            _ => None,
        })
    };
    vec![
        corner("baie-0", 22, small(&|a| a.is("baie", 0).then_some(0)), "block 0 without allocation parameters"),
        corner("snroffste-0", 23, small(&|a| a.is("snroffste", 0).then_some(0)), "block 0 without SNR offsets"),
        corner("delta-reuse-in-block-0", 18, delta(&|a| (a.name == "deltbae").then_some(0)), "deltbae 0 in block 0"),
        corner("delta-reserved", 19, delta(&|a| (a.name == "deltbae").then_some(3)), "deltbae 3"),
        corner(
            "delta-codes-in-turn",
            19,
            delta(&|a| match (a.name, a.index) {
                ("acmod", _) => Some(2),
                ("deltbae", 0) => Some(3),
                ("deltbae", _) => Some(0),
                _ => None,
            }),
            "deltbae 3 for channel 0, 0 for channel 1: judged before the second is read",
        ),
        corner(
            "coupling-delta-reuse-in-block-0",
            18,
            pair(5, |a| match a.name {
                "deltbaie" if a.block == 0 => Some(1),
                "cpldeltbae" => Some(0),
                _ => None,
            }),
            "cpldeltbae 0 in block 0: judged before deltbae is read",
        ),
        corner(
            "coupling-delta-reserved",
            19,
            pair(5, |a| match a.name {
                "deltbaie" if a.block == 0 => Some(1),
                "cpldeltbae" => Some(3),
                _ => None,
            }),
            "cpldeltbae 3",
        ),
        corner(
            "delta-reuse-of-none",
            0,
            small(&|a| match (a.name, a.block) {
                ("deltbaie", 1) => Some(1),
                ("deltbae", 1) => Some(0),
                _ => None,
            }),
            "deltbae 0 in block 1 where no delta was ever sent",
        ),
        corner(
            "delta-past-band-49",
            0,
            sent_delta(&|a| match a.name {
                "deltnseg" => Some(1),
                "deltoffst" => Some(31),
                _ => None,
            }),
            "bands 31 to 45, then 77 to 91",
        ),
        corner(
            "delta-lengths-past-50",
            0,
            sent_delta(&|a| (a.name == "deltnseg").then_some(3)),
            "four segments of 15 bands from band 0 on: 60 bands",
        ),
        corner(
            "delta-of-length-0",
            0,
            sent_delta(&|a| (a.name == "deltlen").then_some(0)),
            "one segment of no band",
        ),
        corner(
            "delta-kept",
            0,
            sent_delta(&|_| None),
            "deltbaie 0 in blocks 1 to 5: the segment of block 0 stays, every block is as wide",
        ),
        corner(
            "delta-cleared",
            0,
            sent_delta(&|a| a.is("deltbaie", 1).then_some(1)),
            "the same with deltbae 2 in block 1: narrower from there on",
        ),
        corner(
            "coupling-delta-below",
            0,
            coupling_delta(|a| (a.name == "cpldeltlen").then_some(15)),
            "coupling delta over bands 0 to 14; coupling begins in band 31",
        ),
        corner(
            "coupling-delta-at-its-first-band",
            0,
            coupling_delta(|a| match a.name {
                "cpldeltoffst" => Some(31),
                "cpldeltlen" => Some(15),
                _ => None,
            }),
            "the same over bands 31 to 45: other widths",
        ),
        corner(
            "coupling-delta-through-pause",
            0,
            through_pause(0),
            "coupling delta of block 0 is in force in block 2 after block 1 without coupling",
        ),
        corner(
            "coupling-delta-cleared-after-pause",
            0,
            through_pause(2),
            "the same with cpldeltbae 2 in block 2: other widths",
        ),
        corner("leak-after-skip-field", 20, loud_pair(&|a| (a.name == "skiple").then_some(1)), "the leak is judged after the skip field"),
        corner("leak-never-sent", 20, loud_pair(&|_| None), "the same without a skip field"),
        corner(
            "leak-before-mantissas",
            20,
            pair(5, |a| (a.name == "csnroffst").then_some(63)),
            "the leak was never sent and the mantissas do not fit: 20 is met first",
        ),
        corner("leak-not-needed", 0, pair(5, |_| None), "all SNR offsets 0: the leak is not needed"),
        corner(
            "leak-through-pause",
            0,
            pair(3, |a| match (a.name, a.block) {
                ("cplstre", 1 | 2) | ("cplinu", 2) | ("cplleake", 0) => Some(1),
                ("csnroffst", _) => Some(1),
                ("chexpstr", 1) => Some(3),
                _ => None,
            }),
            "coupling comes back in block 2 with cplleake 0: the leak of block 0 is in force",
        ),
        corner(
            "coupling-offsets-through-pause",
            0,
            offsets_through_pause(15),
            "coupling's fine offset of block 0 is in force in block 2 after block 1 without coupling",
        ),
        corner(
            "coupling-offsets-0-through-pause",
            0,
            offsets_through_pause(0),
            "the same with that offset 0: other widths",
        ),
        corner(
            "coupling-offsets-never-sent",
            0,
            sized(0, 8, &|a| match (a.name, a.block) {
                ("cplinu", 0) => Some(0),
                ("cplstre" | "cplinu" | "cplleake", 1) => Some(1),
                ("cplexpstr" | "chexpstr", 1) => Some(3),
                ("csnroffst", _) => Some(1),
                _ => coupled(2, 5, a),
            }),
            "coupling begins in block 1 without SNR offsets: its own count as 0",
        ),
        corner("offsets-all-zero", 0, gains([0, 0]), "every SNR offset 0: no mantissas"),
        corner("offsets-one-zero", 0, gains([0, 1]), "channel 0's SNR offset 0, channel 1's not: both have mantissas"),
        corner("offset-of-coupling-unused", 0, quiet_pause(1), "from block 1 on only coupling's offset is not 0, and it is not in use: no mantissas there"),
        corner("offset-of-coupling-zero", 0, quiet_pause(0), "the same with that offset 0 as well: none in block 0 either"),
    ]
}

fn tail_and_room() -> Vec<Corner> {
    let plain = small(&|_| None);
    let mut long_auxdata = plain.clone();
    bits::set(&mut long_auxdata, 1024 - 18 - 14, 15, 0x7FFF);
    let mut one_more = ending_at(1024);
    bits::set(&mut one_more, 1023, 1, 1);
    let loud = |csnroffst: u32| {
        small(&|a| match a.name {
            "csnroffst" => Some(csnroffst),
            "fgaincod" => Some(7),
            _ => None,
        })
    };
    let dense = sized(2, 37, &|a| match a.name {
        "acmod" => Some(7),
        "chexpstr" => Some(1),
        "chbwcod" => Some(60),
        _ => None,
    });
    let skip = |bytes: u32| {
        small(&|a| match (a.name, a.block) {
            ("skiple", 0) => Some(1),
            ("skipl", _) => Some(bytes),
            _ => None,
        })
    };
    let rows = rows_of(&plain);
    vec![
        corner(
            "audio-to-the-last-bit",
            0,
            ending_at(1024),
            "audio up to the frame's last bit",
        ),
        corner(
            "audio-one-bit-more",
            6,
            one_more,
            "the same with skiple 1 in its last bit: skipl does not fit",
        )
        .unfit("skipl", 5),
        corner(
            "block-5-starts-at-the-end",
            6,
            ending_at(1034),
            "block 4 ends with the frame: block 5's first field does not fit",
        )
        .unfit("blksw", 5),
        corner(
            "field-past-the-frame-in-block-0",
            6,
            longest_header(&|a| match (a.name, a.block) {
                ("chexpstr", 0) => Some(1),
                ("chbwcod", _) => Some(60),
                _ => None,
            }),
            "665 bits of header leave block 0 too few for its exponents: a group does not fit",
        )
        .unfit("exps[ch]", 0),
        corner(
            "audio-17-before-the-end",
            0,
            ending_at(1007),
            "one bit too few for auxdatae and errorcheck",
        ),
        corner(
            "audio-18-before-the-end",
            0,
            ending_at(1006),
            "just enough for them",
        ),
        corner(
            "auxdatal-too-long",
            0,
            long_auxdata,
            "auxdatae 1 and an auxdatal longer than the auxbits",
        ),
        corner(
            "past-five-eighths",
            0,
            skip(70),
            "block 1 ends past five eighths of the frame (bit 640)",
        ),
        corner(
            "block-5-over-three-eighths",
            0,
            small(&|a| match (a.name, a.block) {
                ("fgaincod", _) => Some(7),
                ("snroffste", 5) => Some(1),
                ("csnroffst", 5) => Some(9),
                _ => None,
            }),
            "block 5's mantissas alone take more than three eighths of the frame (384 bits)",
        ),
        corner(
            "mantissa-codes-too-large",
            0,
            mantissas_of_ones(small(&|a| match (a.name, a.block) {
                ("fgaincod", _) => Some(7),
                ("snroffste", 1 | 2) => Some(1),
                ("csnroffst", 0) => Some(1),
                ("csnroffst", 1) => Some(5),
                _ => None,
            })),
            "every bit of the mantissas is 1: pointers 1 in block 0 (codes 31, above 26), 2, 3 and 4 in block 1 (codes 127, above 124 and 120)",
        ),
        corner(
            "skip-nothing",
            0,
            skip(0),
            "skipl 0: a span of width 0 with its row",
        ),
        corner(
            "skip-too-much",
            6,
            skip(511),
            "a skip field that does not fit: stands at its start",
        )
        .unfit("skipfld", 0),
        corner(
            "skip-too-much-in-block-5",
            6,
            small(&|a| match (a.name, a.block) {
                ("skiple", 5) => Some(1),
                ("skipl", _) => Some(511),
                _ => None,
            }),
            "the same in block 5",
        )
        .unfit("skipfld", 5),
        corner(
            "mantissa-too-much",
            6,
            loud(63),
            "a mantissa that does not fit: stands at its start",
        )
        .unfit("mantissas", 0),
        corner(
            "mantissa-too-much-in-block-5",
            6,
            small(&|a| match (a.name, a.block) {
                ("fgaincod", _) => Some(7),
                ("snroffste", 5) => Some(1),
                ("csnroffst", 5) => Some(63),
                _ => None,
            }),
            "the same in block 5",
        )
        .unfit("mantissas", 5),
        corner(
            "walk-order-coupling",
            6,
            small(&|a| match (a.name, a.block) {
                ("cplbegf" | "cplendf", _) => Some(0),
                ("csnroffst", _) => Some(63),
                ("cplleake", _) => Some(1),
                ("cplabsexp", _) => Some(3),
                _ => coupled(2, 2, a),
            }),
            "channel 0's mantissas (16 bits each) fit, coupling's (14) come next and do not",
        )
        .unfit("mantissas", 0),
        corner(
            "walk-order-lfe",
            6,
            small(&|a| match a.name {
                "lfeon" => Some(1),
                "csnroffst" => Some(63),
                "lfeexps[0]" => Some(6),
                _ => None,
            }),
            "the channel's mantissas (16 bits each) come before those of LFE (14) and do not fit",
        )
        .unfit("mantissas", 0),
        corner(
            "six-before-seven",
            6,
            loud(63),
            "a mantissa that does not fit, and no row left for the mantissas",
        )
        .rows(rows_of(&loud(63)))
        .unfit("mantissas", 0),
        corner(
            "seven-after-the-walk",
            7,
            loud(1),
            "no row for block 0's mantissas: stands where their walk ends",
        )
        .rows(rows_of(&loud(63))),
        corner(
            "one-row-too-few",
            7,
            plain.clone(),
            "no row for the last mantissas",
        )
        .rows(rows - 1),
        corner(
            "just-enough-rows",
            0,
            plain,
            "as many rows as the frame has",
        )
        .rows(rows),
        corner(
            "more-rows-than-lent",
            0,
            dense.clone(),
            "more rows than the listing program lends",
        ),
        corner(
            "more-rows-than-lent-listed",
            7,
            dense,
            "the same as the listing program sees it",
        )
        .rows(listing::ROWS),
        corner(
            "most-rows",
            0,
            most_rows(),
            "as many rows as a frame can have",
        )
        .rows(MOST_ROWS),
        corner(
            "most-rows-one-too-few",
            7,
            most_rows(),
            "the same with one row fewer: none for the last mantissas",
        )
        .rows(MOST_ROWS - 1),
    ]
}

/// corners.txt.
pub fn text() -> String {
    let mut judge = Judge::default();
    let mut out = String::from(
        "The corner cases: what each is, then its name, how it is called (place and rows, where they are not 0 and\n\
         ample), the listing's last line, and the input. Printed by the program `corners`.\n",
    );
    for corner in all() {
        out += &format!("\n# {}\n{}", corner.what, corner.entry(&mut judge));
    }
    out
}
