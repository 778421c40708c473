//! The bit allocation of the port, behind its archive, and that of the judge, by the same codes.

pub mod draw;

use judge::alloc::{allocate, Channel, DeltaSeg, Params};
use judge::tables::{BAP, DB_KNEE, FAST_DECAY, FAST_GAIN, FLOOR, HEBAP, SLOW_DECAY, SLOW_GAIN};

/// The bins of an array of exponents or pointers.
pub const BINS: usize = 256;

/// The tables of pointers, by the numbers that choose them.
pub const TABLES: [(&str, &[u8; 64]); 2] = [("BAP", &BAP), ("HEBAP", &HEBAP)];

/// The parameters of one call but for its table, by their codes.
#[derive(Debug)]
pub struct Set {
    pub exponents: [i16; BINS],
    pub start: usize,
    pub end: usize,
    pub sdcycod: u8,
    pub fdcycod: u8,
    pub sgaincod: u8,
    pub dbpbcod: u8,
    pub floorcod: u8,
    pub fgaincod: u8,
    pub fscod: usize,
    pub csnroffst: u8,
    pub fsnroffst: u8,
    pub fastleak: u16,
    pub slowleak: u16,
    /// Offset, length and code of each segment.
    pub segments: [u8; 24],
    pub count: usize,
}

extern "C" {
    fn ferrysprig_allocate(
        exponents: &[i16; BINS],
        start: usize,
        end: usize,
        sdcycod: u8,
        fdcycod: u8,
        sgaincod: u8,
        dbpbcod: u8,
        floorcod: u8,
        fgaincod: u8,
        fscod: usize,
        csnroffst: u8,
        fsnroffst: u8,
        fastleak: u16,
        slowleak: u16,
        segments: &[u8; 24],
        count: usize,
        out: &mut [u8; BINS],
        which: u8,
    ) -> bool;
}

/// The port's answer by the table of a number: whether the set was taken, and the pointers in `out`.
pub fn by_port(s: &Set, out: &mut [u8; BINS], which: u8) -> bool {
    // SAFETY: the arrays have the lengths that are asked for; the port asks nothing else of its caller, and keeps nothing.
    unsafe {
        ferrysprig_allocate(
            &s.exponents,
            s.start,
            s.end,
            s.sdcycod,
            s.fdcycod,
            s.sgaincod,
            s.dbpbcod,
            s.floorcod,
            s.fgaincod,
            s.fscod,
            s.csnroffst,
            s.fsnroffst,
            s.fastleak,
            s.slowleak,
            &s.segments,
            s.count,
            out,
            which,
        )
    }
}

/// The judge's answer to a set that fits, by a table: the pointers up to the end of the range.
pub fn by_judge(s: &Set, table: &[u8; 64]) -> Vec<u8> {
    let mut delta = [DeltaSeg { offset: 0, len: 0, ba: 0 }; 8];
    for (d, part) in delta[..s.count].iter_mut().zip(s.segments.chunks_exact(3)) {
        *d = DeltaSeg { offset: part[0], len: part[1], ba: part[2] };
    }
    let channel = Channel {
        exp: &s.exponents,
        start: s.start,
        end: s.end,
        fgain: FAST_GAIN[usize::from(s.fgaincod)].into(),
        snroffset: (((i32::from(s.csnroffst) - 15) << 4) + i32::from(s.fsnroffst)) << 2,
        leak: Some((s.fastleak.into(), s.slowleak.into())),
        delta: &delta[..s.count],
    };
    let params = Params {
        sdecay: SLOW_DECAY[usize::from(s.sdcycod)].into(),
        fdecay: FAST_DECAY[usize::from(s.fdcycod)].into(),
        sgain: SLOW_GAIN[usize::from(s.sgaincod)].into(),
        dbknee: DB_KNEE[usize::from(s.dbpbcod)].into(),
        floor: FLOOR[usize::from(s.floorcod)].into(),
        fscod: s.fscod,
    };
    allocate(&channel, &params, table)
}

/// Whether a set is one that the port takes, by a table that there is: docs/PROMISES.md in words of Rust.
pub fn fits(s: &Set) -> bool {
    (s.start == 0 || s.start >= 37)
        && s.end <= 253
        && s.fscod <= 2
        && s.csnroffst <= 63
        && s.fsnroffst <= 15
        && s.count <= 8
        && s.exponents.iter().all(|e| (0..=24).contains(e))
}
