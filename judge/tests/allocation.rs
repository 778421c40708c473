//! The published `allocate`, by either table of pointers, against an allocation written from the words of docs/FORMAT.md: one loop over
//! the bands with the state fast, slow, lowcomp and rising.

use judge::alloc::{allocate, Channel, DeltaSeg, Params};
use judge::rng::Rng;
use judge::tables::{masktab, BAP, HEARING, HEBAP, LOG_ADD};

fn logadd(a: i32, b: i32) -> i32 {
    a.max(b) + LOG_ADD[((a - b).abs() / 2).min(255) as usize]
}

fn calc_lowcomp(a: i32, b0: i32, b1: i32, bin: usize) -> i32 {
    match bin {
        20.. => (a - 128).max(0),
        _ if b0 + 256 == b1 && bin < 7 => 384,
        _ if b0 + 256 == b1 => 320,
        _ if b0 > b1 => (a - 64).max(0),
        _ => a,
    }
}

/// 6.2.2, one band or bin at a time.
fn in_words(c: &Channel<'_>, p: &Params, table: &[u8; 64]) -> Vec<u8> {
    let psd = |bin: usize| 3072 - 128 * i32::from(c.exp[bin]);
    let (first, end) = (masktab(c.start), masktab(c.end - 1) + 1);
    let bins = |k: usize| (c.start..c.end).filter(move |&bin| masktab(bin) == k);
    let level: Vec<i32> = (0..50)
        .map(|k| bins(k).map(psd).reduce(logadd).unwrap_or(0))
        .collect();
    let mut excite = [0; 50];
    let (mut fast, mut slow) = c.leak.unwrap_or((0, 0));
    let (mut low, mut rising) = (0, false);
    for k in first..end {
        let last_of_lfe = end == 7 && k == 6;
        let low_band = first == 0 && k < 22;
        if low_band && !last_of_lfe {
            low = calc_lowcomp(low, level[k], level[k + 1], k);
        }
        let lowcomp = if low_band { low } else { 0 };
        if first == 0 && k < 7 && !rising {
            (fast, slow) = (level[k] - c.fgain, level[k] - p.sgain);
            excite[k] = fast - lowcomp;
            rising = k >= 2 && !last_of_lfe && level[k] <= level[k + 1];
        } else {
            fast = (fast - p.fdecay).max(level[k] - c.fgain);
            slow = (slow - p.sdecay).max(level[k] - p.sgain);
            excite[k] = (fast - lowcomp).max(slow);
        }
    }
    let mut mask = [0; 50];
    for k in first..end {
        let knee = ((p.dbknee - level[k]) >> 2).max(0);
        mask[k] = (excite[k] + knee).max(HEARING[50 * p.fscod + k].into());
    }
    let mut band = 0;
    for s in c.delta {
        band += usize::from(s.offset);
        for _ in 0..s.len {
            if band < 50 {
                mask[band] += 128 * (i32::from(s.ba) - if s.ba >= 4 { 3 } else { 4 });
            }
            band += 1;
        }
    }
    let pointer = |bin| {
        let m = (mask[masktab(bin)] - c.snroffset - p.floor).max(0);
        assert!(m < 0x2000, "nothing stands above bit 12");
        table[((psd(bin) - (m & 0x1fe0) - p.floor) >> 5).clamp(0, 63) as usize]
    };
    let bins = 0..c.end;
    bins.map(|bin| if bin < c.start { 0 } else { pointer(bin) })
        .collect()
}

#[test]
fn published_allocation_is_that_in_words() {
    let mut rng = Rng(1);
    for round in 0..20_000 {
        let mut exponent = rng.below(16) as i16;
        let exp: Vec<i16> = (0..256)
            .map(|_| {
                exponent = (exponent + rng.below(5) as i16 - 2).clamp(0, 24);
                exponent
            })
            .collect();
        let begin = rng.below(16);
        let (start, end) = match round % 3 {
            0 if rng.chance(50) => (0, 37 + 12 * rng.below(16)),
            0 => (0, 73 + 3 * rng.below(61)),
            1 => (
                37 + 12 * begin,
                37 + 12 * (begin + 1 + rng.below(18 - begin)),
            ),
            _ => (0, 7),
        };
        let mut leak = || 256 * rng.below(8) as i32 + 768;
        let leak = (round % 3 == 1).then(|| (leak(), leak()));
        let delta: Vec<DeltaSeg> = (0..rng.below(9))
            .map(|_| DeltaSeg {
                offset: rng.below(32) as u8,
                len: rng.below(16) as u8,
                ba: rng.below(8) as u8,
            })
            .collect();
        let c = Channel {
            exp: &exp,
            start,
            end,
            fgain: 128 * (1 + rng.below(8) as i32),
            snroffset: 4 * (16 * (rng.below(64) as i32 - 15) + rng.below(16) as i32),
            leak,
            delta: &delta,
        };
        let p = Params {
            sdecay: rng.pick(&[15, 17, 19, 21]),
            fdecay: rng.pick(&[63, 83, 103, 123]),
            sgain: rng.pick(&[1344, 1240, 1144, 1040]),
            dbknee: rng.pick(&[0, 1792, 2304, 2816]),
            floor: rng.pick(&[752, 688, 624, 560, 496, 368, 240, -2048]),
            fscod: rng.below(3),
        };
        for table in [&BAP, &HEBAP] {
            let ours = in_words(&c, &p, table);
            assert_eq!(ours, allocate(&c, &p, table), "round {round}");
        }
    }
}
