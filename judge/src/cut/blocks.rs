//! CUT COPY of `ddpmeta/blocks.rs`. Changed: the cursor's type, groups and segments are told, the bits of mantissas are counted by
//! slot, and every refusal names its number of docs/FORMAT.md at its site (0: docs/FORMAT.md says that it cannot happen). `aht` and `refuse` are dropped.
//!
//! Audio block machinery shared by the AC-3 (4.3.3) and E-AC-3 (E.1.2.4) parsers: exponent
//! unpacking (6.1.3), bit allocation state (6.2.2), and mantissa section lengths (6.3.5 for
//! conventional mantissas, E.2.4.2 and E.2.4.4 for AHT).

use crate::alloc::{self, DeltaSeg, Params};
use crate::cut::{no, Cursor, Result, Source};
use crate::tables::{
    BAP, BAP_BITS, DB_KNEE, FAST_DECAY, FAST_GAIN, FLOOR, HEBAP, SLOW_DECAY, SLOW_GAIN,
};

/// Channel slots: full bandwidth channels 0 to 4, then the coupling and LFE channels.
pub const CPL: usize = 5;
pub const LFE: usize = 6;
pub const SLOTS: usize = 7;

/// Decoded exponent set of one channel slot.
#[derive(Clone, Debug, Default)]
pub struct ExpSet {
    pub exp: Vec<i16>,
    pub start: usize,
    pub end: usize,
}

/// Read one exponent set (6.1.3). `strategy` is 1, 2 or 3 (D15, D25, D45).
pub fn read_exponents<S: Source>(
    cur: &mut Cursor<'_, S>,
    slot: usize,
    strategy: u8,
    start: usize,
    end: usize,
) -> Result<ExpSet> {
    if !(1..=3).contains(&strategy) {
        return no(0, "exponent reuse where new exponents are required");
    }
    if end <= start || end > 256 {
        return no(0, format!("exponent range {start}..{end}"));
    }
    let grpsize = 1usize << (strategy - 1);
    let (absname, grpname): (&'static str, &'static str) = match slot {
        CPL => ("cplabsexp", "cplexps"),
        LFE => ("lfeexps[0]", "lfeexps"),
        _ => ("exps[ch][0]", "exps[ch]"),
    };
    let ngrps = match slot {
        CPL => (end - start) / (3 * grpsize),
        LFE => 2,
        _ => (end - 1 + 3 * grpsize - 3) / (3 * grpsize),
    };
    let index = if slot < CPL { slot } else { 0 };
    let absexp = cur.geti(absname, index, 4)? as i32;
    let mut prev = if slot == CPL { absexp << 1 } else { absexp };
    let mut exp = vec![0i16; 256];
    let mut out = Vec::with_capacity(ngrps * 3 * grpsize + 1);
    if slot != CPL {
        out.push(prev);
    }
    for grp in 0..ngrps {
        let g = cur.get_part(grpname, index, grp, 7)?;
        if g > 124 {
            return no(16, format!("grouped exponent {g} > 124"));
        }
        for m in [g / 25, (g % 25) / 5, g % 5] {
            prev += m as i32 - 2;
            if !(0..=24).contains(&prev) {
                return no(17, format!("exponent {prev} outside 0..24"));
            }
            for _ in 0..grpsize {
                out.push(prev);
            }
        }
    }
    let base = if slot == CPL { start } else { 0 };
    for (i, &e) in out.iter().enumerate() {
        if base + i < 256 {
            exp[base + i] = e as i16;
        }
    }
    if base + out.len() < end {
        return no(0, "exponent set shorter than its mantissa range");
    }
    Ok(ExpSet { exp, start, end })
}

/// Bit allocation side information carried across blocks of one frame.
#[derive(Clone, Debug, Default)]
pub struct AllocState {
    /// sdcycod, fdcycod, sgaincod, dbpbcod, floorcod.
    pub bai: Option<[u8; 5]>,
    pub csnroffst: Option<u8>,
    pub fsnroffst: [u8; SLOTS],
    pub fgaincod: [u8; SLOTS],
    pub cplleak: Option<(u8, u8)>,
    /// Active delta segments by slot; empty means no delta (6.2.2.6, deltbae 2).
    pub delta: [Vec<DeltaSeg>; SLOTS],
}

impl AllocState {
    pub fn params(&self, fscod: usize) -> Result<Params> {
        let Some(b) = self.bai else {
            return no(0, "bit allocation parameters used before transmission");
        };
        Ok(Params {
            sdecay: i32::from(SLOW_DECAY[b[0] as usize]),
            fdecay: i32::from(FAST_DECAY[b[1] as usize]),
            sgain: i32::from(SLOW_GAIN[b[2] as usize]),
            dbknee: i32::from(DB_KNEE[b[3] as usize]),
            floor: i32::from(FLOOR[b[4] as usize]),
            fscod,
        })
    }

    /// Read delta segments for one slot (deltnseg, then offset, length, ba per segment).
    pub fn read_delta<S: Source>(&mut self, cur: &mut Cursor<'_, S>, slot: usize) -> Result<()> {
        let (n, o, l, b): (&'static str, &'static str, &'static str, &'static str) = if slot == CPL
        {
            ("cpldeltnseg", "cpldeltoffst", "cpldeltlen", "cpldeltba")
        } else {
            ("deltnseg", "deltoffst", "deltlen", "deltba")
        };
        let nseg = cur.geti(n, slot, 3)? as usize;
        let mut segs = Vec::with_capacity(nseg + 1);
        for seg in 0..=nseg {
            let offset = cur.get_part(o, slot, seg, 5)? as u8;
            let len = cur.get_part(l, slot, seg, 4)? as u8;
            let ba = cur.get_part(b, slot, seg, 3)? as u8;
            segs.push(DeltaSeg { offset, len, ba });
        }
        self.delta[slot] = segs;
        Ok(())
    }

    /// Apply a deltbae code (Table 4.11): 0 reuse, 1 new info follows (read by the caller
    /// later), 2 no delta, 3 reserved.
    pub fn delta_code(&mut self, slot: usize, code: u32, block0: bool) -> Result<()> {
        match code {
            0 if block0 => no(18, "deltbae reuse in block 0"),
            0 | 1 => Ok(()),
            2 => {
                self.delta[slot].clear();
                Ok(())
            }
            _ => no(19, "reserved deltbae"),
        }
    }
}

/// One slot's allocation request for a block.
pub struct SlotAlloc<'a> {
    pub slot: usize,
    pub exps: &'a ExpSet,
    pub start: usize,
    pub end: usize,
    pub high_efficiency: bool,
}

/// Compute bap (or hebap) arrays for the given slots. Implements the all-zero SNR offset
/// special case of 6.2.2.1 over the offsets in use by this block.
pub fn allocate_block(
    st: &AllocState,
    fscod: usize,
    slots: &[SlotAlloc<'_>],
) -> Result<[Vec<u8>; SLOTS]> {
    let mut out: [Vec<u8>; SLOTS] = Default::default();
    let Some(csnr) = st.csnroffst else {
        return no(0, "SNR offsets used before transmission");
    };
    let all_zero = csnr == 0 && slots.iter().all(|s| st.fsnroffst[s.slot] == 0);
    let p = st.params(fscod)?;
    for s in slots {
        if all_zero {
            out[s.slot] = vec![0; s.end];
            continue;
        }
        if s.exps.start > s.start || s.exps.end < s.end {
            return no(
                0,
                "reused exponents do not cover the current mantissa range",
            );
        }
        let leak = if s.slot == CPL {
            let Some((f, l)) = st.cplleak else {
                return no(20, "coupling leak used before transmission");
            };
            Some(((i32::from(f) << 8) + 768, (i32::from(l) << 8) + 768))
        } else {
            None
        };
        let snroffset = (((i32::from(csnr) - 15) << 4) + i32::from(st.fsnroffst[s.slot])) << 2;
        let table = if s.high_efficiency { &HEBAP } else { &BAP };
        out[s.slot] = alloc::allocate(
            &alloc::Channel {
                exp: &s.exps.exp,
                start: s.start,
                end: s.end,
                fgain: i32::from(FAST_GAIN[st.fgaincod[s.slot] as usize]),
                snroffset,
                leak,
                delta: if s.slot == LFE {
                    &[]
                } else {
                    &st.delta[s.slot]
                },
            },
            &p,
            table,
        );
    }
    Ok(out)
}

/// Grouping state for bap 1, 2 and 4 within one block (6.3.5).
#[derive(Default)]
pub struct Groups {
    g1: u8,
    g2: u8,
    g4: u8,
}

/// Advance over conventional mantissas of bins `[start, end)`, and add their bits to those of their slot.
pub fn conventional<S: Source>(
    cur: &mut Cursor<'_, S>,
    bap: &[u8],
    start: usize,
    end: usize,
    g: &mut Groups,
    used: &mut usize,
) -> Result<()> {
    for &b in &bap[start..end] {
        cur.pointers.push(b);
        let n = match b {
            0 => 0,
            1 => {
                let n = if g.g1 == 0 { 5 } else { 0 };
                g.g1 = (g.g1 + 1) % 3;
                n
            }
            2 => {
                let n = if g.g2 == 0 { 7 } else { 0 };
                g.g2 = (g.g2 + 1) % 3;
                n
            }
            4 => {
                let n = if g.g4 == 0 { 7 } else { 0 };
                g.g4 = (g.g4 + 1) % 2;
                n
            }
            b if b < 16 => BAP_BITS[b as usize],
            _ => return no(0, "bap above 15"),
        };
        if n > 0 {
            cur.raw(n, "mantissa")?;
            *used += n;
        }
    }
    Ok(())
}
