//! Random parameter sets.

use crate::{Set, BINS};
use judge::rng::Rng;

/// Full bandwidth channels end where chbwcod says.
fn channel_range(r: &mut Rng) -> (usize, usize) {
    (0, 37 + 3 * (r.below(61) + 12))
}

fn coupling_range(r: &mut Rng) -> (usize, usize) {
    let begin = r.below(15);
    let bands = 1 + r.below(18 - begin);
    (37 + 12 * begin, 37 + 12 * (begin + bands))
}

/// Up to two steps from group to group, as differential exponents go.
fn walk(r: &mut Rng, exponents: &mut [i16]) {
    let group = r.pick(&[1, 1, 2, 4]);
    let mut e = r.below(25) as i16;
    for (i, x) in exponents.iter_mut().enumerate() {
        if i % group == 0 {
            e = (e + r.below(5) as i16 - 2).clamp(0, 24);
        }
        *x = e;
    }
}

/// Any exponents, the least and the most, all the same, or a walk.
fn exponents(r: &mut Rng) -> [i16; BINS] {
    let mut all = [0; BINS];
    match r.below(8) {
        0 => all.fill_with(|| r.below(25) as i16),
        1 => all.fill_with(|| 24 * r.below(2) as i16),
        2 => all.fill(r.below(25) as i16),
        _ => walk(r, &mut all),
    }
    all
}

/// Now and then wider than their fields.
fn segments(r: &mut Rng) -> [u8; 24] {
    let mut all = [0; 24];
    let wide = r.chance(6);
    for part in all.chunks_exact_mut(3) {
        part[0] = r.below(if wide { 256 } else { 32 }) as u8;
        part[1] = r.below(if wide { 256 } else { 16 }) as u8;
        part[2] = r.below(if wide { 256 } else { 8 }) as u8;
    }
    all
}

/// A code of the coupling leak; now and then any number.
fn leak(r: &mut Rng) -> u16 {
    if r.chance(6) {
        r.draw() as u16
    } else {
        (r.below(8) << 8) as u16 + 768
    }
}

fn rest(r: &mut Rng, (start, end): (usize, usize), count: usize) -> Set {
    Set {
        exponents: exponents(r),
        start,
        end,
        sdcycod: r.below(4) as u8,
        fdcycod: r.below(4) as u8,
        sgaincod: r.below(4) as u8,
        dbpbcod: r.below(4) as u8,
        floorcod: r.below(8) as u8,
        fgaincod: r.below(8) as u8,
        fscod: r.below(3),
        csnroffst: r.below(64) as u8,
        fsnroffst: r.below(16) as u8,
        fastleak: leak(r),
        slowleak: leak(r),
        segments: segments(r),
        count,
    }
}

/// Any call that a frame can make, and any other range that the port takes.
fn fitting(r: &mut Rng) -> Set {
    let count = if r.chance(50) { r.below(9) } else { 0 };
    let range = match r.below(6) {
        0 => (0, 7),
        1 => coupling_range(r),
        2 => (37 + r.below(263), r.below(254)),
        3 => (0, r.below(254)),
        4 => (0, 37 + 12 * r.below(16)),
        _ => channel_range(r),
    };
    rest(r, range, count)
}

/// One number of a set just outside or far outside of its range.
fn spoil(r: &mut Rng, set: &mut Set) {
    match r.below(7) {
        0 => set.start = 1 + r.below(36),
        1 => set.end = r.pick(&[254, 256, 257, usize::MAX]),
        2 => set.fscod = r.pick(&[3, usize::MAX]),
        3 => set.csnroffst = r.pick(&[64, 255]),
        4 => set.fsnroffst = r.pick(&[16, 255]),
        5 => set.count = r.pick(&[9, usize::MAX]),
        _ => set.exponents[r.below(BINS)] = r.pick(&[-1, 25, i16::MIN, i16::MAX]),
    }
}

/// A set; one in sixteen does not fit.
pub fn any(r: &mut Rng) -> Set {
    let mut set = fitting(r);
    if r.below(16) == 0 {
        spoil(r, &mut set);
    }
    set
}

/// The kinds of calls whose instructions are counted.
pub const KINDS: [&str; 5] = ["lfe", "coupling", "channel", "mixed", "widest"];

/// A call as frames make them, of a kind: exponents that walk, now and then a few segments (LFE has none), and offsets in the middle of their
/// range. `mixed` are one of LFE, one of coupling and six of channels among eight; `widest` is full bandwidth alone, all 253 bins, without
/// segments.
pub fn usual(r: &mut Rng, kind: &str) -> Set {
    let kind = if kind == "mixed" { r.pick(&["lfe", "coupling", "channel", "channel", "channel", "channel", "channel", "channel"]) } else { kind };
    let range = match kind {
        "lfe" => (0, 7),
        "coupling" => coupling_range(r),
        "channel" => channel_range(r),
        _ => (0, 253),
    };
    let few = r.below(8) == 0 && (kind == "channel" || kind == "coupling");
    let count = if few { 1 + r.below(3) } else { 0 };
    let mut set = rest(r, range, count);
    walk(r, &mut set.exponents);
    set.csnroffst = 10 + r.below(30) as u8;
    set
}
