//! Things that an accepted frame may hold and that few frames do, recognised from its rows.

use crate::cut::Summary;
use crate::frame::ac3_five_eighths_bits;
use crate::layout::{row_at, ROW};
use crate::listing;
use crate::names;
use crate::tables::masktab;
use std::collections::BTreeMap;

pub const FEATURES: [&str; 28] = [
    "zero-width mantissas in some block",
    "zero-width mantissas in every block",
    "eight delta segments",
    "eight coupling delta segments",
    "a delta segment of length 0",
    "delta segments past band 49",
    "coupling delta below the first coupling band",
    "delta reused (deltbae 0) where none is in force",
    "delta in force in a later block with deltbaie 0",
    "coupling delta in force after a pause without coupling",
    "skipl 0",
    "addbsil 63",
    "phase flags",
    "coupling in some blocks only",
    "coordinates not sent",
    "a channel joins coupling after the first coupled block with cplcoe 0",
    "a channel comes back to coupling with cplcoe 0, and had coordinates",
    "coordinates of a late channel alone not sent",
    "channel exponents reused as the channel joins or leaves coupling, with the same end",
    "coupling exponents reused after a pause without coupling",
    "coupling in use, its fine offset and gain code never sent",
    "coupling in use with all SNR offsets 0, its leak never sent",
    "coupling start exponent 26",
    "all SNR offsets in use 0, that of coupling not in use not 0",
    "csnroffst 0 and one channel's fine offset 0, another's not",
    "more rows than the listing program lends",
    "audio up to the frame's last bit",
    "block 1 ending past five eighths of the frame",
];

/// The rows of one accepted frame, asked by name.
struct Rows<'a>(Vec<&'a [i32]>);

impl<'a> Rows<'a> {
    fn named(&self, name: &str) -> impl Iterator<Item = &'a [i32]> + '_ {
        let number = names::number(name);
        self.0
            .iter()
            .copied()
            .filter(move |r| r[row_at::NAME] == number)
    }
    fn in_block(&self, block: i32) -> Rows<'a> {
        Rows(
            self.0
                .iter()
                .copied()
                .filter(|r| r[row_at::BLOCK] == block)
                .collect(),
        )
    }
    fn value(&self, name: &str, index: i32) -> Option<i32> {
        self.named(name)
            .find(|r| r[row_at::INDEX] == index)
            .map(|r| r[row_at::VALUE])
    }
    fn has(&self, name: &str) -> bool {
        self.named(name).next().is_some()
    }
}

/// What is in force for a channel from block to block.
#[derive(Clone, Default)]
struct Channel {
    end: i32,
    coupled: bool,
    had_coordinates: bool,
    bandwidth: i32,
    delta: bool,
}

/// What is in force for coupling from block to block.
#[derive(Default)]
struct Coupling {
    in_use: bool,
    blocks: usize,
    paused: bool,
    range: (i32, i32),
    range_of_exponents: Option<(i32, i32)>,
    offsets_sent: bool,
    leak_sent: bool,
    delta: bool,
    delta_before_pause: bool,
}

/// The places in `FEATURES` of those that the frame has.
pub fn of(rows: &[i32], s: &Summary) -> Vec<i32> {
    let mut met = [false; FEATURES.len()];
    let mut meet = |what: &str, yes: bool| {
        let at = FEATURES
            .iter()
            .position(|f| *f == what)
            .expect("a feature of the list");
        met[at] |= yes;
    };
    let all = Rows(rows.chunks(ROW).collect());
    let mut channels = vec![Channel::default(); 5];
    let mut coupling = Coupling::default();
    let (mut coarse, mut fine) = (0, BTreeMap::new());
    for block in 0..6 {
        let b = all.in_block(block);
        let new_strategy = b.value("cplstre", -1) == Some(1);
        if let Some(in_use) = b.value("cplinu", -1) {
            if coupling.in_use && in_use == 0 {
                coupling.paused = true;
                coupling.delta_before_pause = coupling.delta;
            }
            coupling.in_use = in_use == 1;
        }
        if let (Some(begin), Some(end)) = (b.value("cplbegf", -1), b.value("cplendf", -1)) {
            coupling.range = (begin, end);
        }
        for (ch, channel) in (0..).zip(&mut channels) {
            let Some(strategy) = b.value("chexpstr", ch) else {
                continue;
            };
            let was_coupled = channel.coupled;
            if new_strategy {
                channel.coupled = b.value("chincpl", ch) == Some(1);
            }
            channel.bandwidth = b.value("chbwcod", ch).unwrap_or(channel.bandwidth);
            let end = if channel.coupled {
                37 + 12 * coupling.range.0
            } else {
                73 + 3 * channel.bandwidth
            };
            meet(
                "channel exponents reused as the channel joins or leaves coupling, with the same end",
                strategy == 0 && was_coupled != channel.coupled && end == channel.end,
            );
            meet(
                "a channel joins coupling after the first coupled block with cplcoe 0",
                coupling.blocks > 0 && !was_coupled && b.value("cplcoe", ch) == Some(0),
            );
            meet(
                "a channel comes back to coupling with cplcoe 0, and had coordinates",
                channel.had_coordinates && !was_coupled && b.value("cplcoe", ch) == Some(0),
            );
            channel.had_coordinates |= b.value("cplcoe", ch) == Some(1);
            channel.end = end;
            let code = b.value("deltbae", ch);
            meet(
                "delta reused (deltbae 0) where none is in force",
                code == Some(0) && !channel.delta,
            );
            meet(
                "delta in force in a later block with deltbaie 0",
                b.value("deltbaie", -1) == Some(0) && channel.delta,
            );
            match code {
                Some(1) => channel.delta = true,
                Some(2) => channel.delta = false,
                _ => {}
            }
        }
        coarse = b.value("csnroffst", -1).unwrap_or(coarse);
        for name in ["cplfsnroffst", "fsnroffst", "lfefsnroffst"] {
            fine.extend(
                b.named(name)
                    .map(|r| ((name, r[row_at::INDEX]), r[row_at::VALUE])),
            );
        }
        let of_coupling = fine.get(&("cplfsnroffst", -1)).copied().unwrap_or(0);
        let sum: i32 = fine.values().sum();
        meet(
            "all SNR offsets in use 0, that of coupling not in use not 0",
            !coupling.in_use && of_coupling != 0 && coarse == 0 && sum == of_coupling,
        );
        let of_channels = |test: fn(i32) -> bool| {
            fine.iter()
                .any(|((name, _), offset)| *name == "fsnroffst" && test(*offset))
        };
        meet(
            "csnroffst 0 and one channel's fine offset 0, another's not",
            coarse == 0 && of_channels(|o| o == 0) && of_channels(|o| o != 0),
        );
        if coupling.in_use {
            coupling.blocks += 1;
            let strategy = b.value("cplexpstr", -1);
            meet(
                "coupling exponents reused after a pause without coupling",
                strategy == Some(0)
                    && coupling.paused
                    && coupling.range_of_exponents == Some(coupling.range),
            );
            meet(
                "coupling start exponent 26",
                b.value("cplabsexp", 0) == Some(13),
            );
            coupling.offsets_sent |= b.has("cplfsnroffst");
            coupling.leak_sent |= b.has("cplfleak");
            meet(
                "coupling in use, its fine offset and gain code never sent",
                !coupling.offsets_sent,
            );
            meet(
                "coupling in use with all SNR offsets 0, its leak never sent",
                !coupling.leak_sent,
            );
            let code = b.value("cpldeltbae", -1);
            meet(
                "delta reused (deltbae 0) where none is in force",
                code == Some(0) && !coupling.delta,
            );
            match code {
                Some(1) => coupling.delta = true,
                Some(2) => coupling.delta = false,
                _ => {}
            }
            meet(
                "coupling delta in force after a pause without coupling",
                coupling.paused && coupling.delta_before_pause && coupling.delta && code != Some(1),
            );
            if strategy != Some(0) {
                coupling.range_of_exponents = Some(coupling.range);
            }
            coupling.paused = false;
        }
        // Segments stand one after the other: offsets and lengths add up.
        for (offset, length, slots) in [
            ("deltoffst", "deltlen", 0..5),
            ("cpldeltoffst", "cpldeltlen", 5..6),
        ] {
            meet(
                "a delta segment of length 0",
                b.named(length).any(|r| r[row_at::VALUE] == 0),
            );
            for slot in slots {
                let sum = |name| {
                    b.named(name)
                        .filter(|r| r[row_at::INDEX] == slot)
                        .map(|r| r[row_at::VALUE])
                        .sum::<i32>()
                };
                meet(
                    "delta segments past band 49",
                    sum(offset) + sum(length) > 50,
                );
            }
        }
        let first_band = masktab(37 + 12 * coupling.range.0 as usize) as i32;
        meet(
            "coupling delta below the first coupling band",
            b.value("cpldeltoffst", 5).is_some_and(|o| o < first_band),
        );
    }
    let zero_mantissas = all
        .named("mantissas")
        .filter(|r| r[row_at::WIDTH] == 0)
        .count();
    meet("zero-width mantissas in some block", zero_mantissas > 0);
    meet("zero-width mantissas in every block", zero_mantissas == 6);
    meet(
        "eight delta segments",
        all.named("deltnseg").any(|r| r[row_at::VALUE] == 7),
    );
    meet(
        "eight coupling delta segments",
        all.named("cpldeltnseg").any(|r| r[row_at::VALUE] == 7),
    );
    meet("skipl 0", all.named("skipl").any(|r| r[row_at::VALUE] == 0));
    meet("addbsil 63", all.value("addbsil", -1) == Some(63));
    meet("phase flags", all.has("phsflg"));
    meet(
        "coupling in some blocks only",
        (1..6).contains(&s.cpl_blocks),
    );
    meet("coordinates not sent", !s.coordinates_sent);
    let first_coupled = all.named("cplcoe").next().map(|r| r[row_at::BLOCK]);
    meet(
        "coordinates of a late channel alone not sent",
        !s.coordinates_sent
            && all
                .named("cplcoe")
                .filter(|r| Some(r[row_at::BLOCK]) == first_coupled)
                .all(|r| r[row_at::VALUE] == 1),
    );
    meet(
        "more rows than the listing program lends",
        s.rows > listing::ROWS,
    );
    meet(
        "audio up to the frame's last bit",
        s.audio_end == 8 * s.bytes,
    );
    meet(
        "block 1 ending past five eighths of the frame",
        s.block_starts[2] > ac3_five_eighths_bits(s.bytes),
    );
    (0..)
        .zip(met)
        .filter(|(_, yes)| *yes)
        .map(|(at, _)| at)
        .collect()
}
