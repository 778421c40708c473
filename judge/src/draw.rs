//! Guided random frames: the parser itself asks for each value, the drawer chooses one that may pass and
//! writes it into the frame; after a refusal the part that led to it is drawn again.
//!
//! This reaches what encoders never send: every coupling range, phase flags, eight delta segments, Annex D,
//! two programmes, odd reuse patterns, skip fields, long addbsi, zero-width mantissas.

use crate::bits;
use crate::craft::LEVEL;
use crate::cut::{ac3, Answer, Cursor, No, Source, MANY_ROWS};
use crate::frame::{fix_crcs, Codec};
use crate::layout::{row_at, ROW};
use crate::rng::Rng;
use crate::tables::{ac3_frame_words, NFCHANS};

/// What one frame is meant to look like. Percentages are chances out of 100.
#[derive(Clone, Debug)]
pub struct Style {
    pub fscod: usize,
    pub frmsizecod: usize,
    pub acmod: usize,
    pub bsid: usize,
    /// Optional header parts and dynrng.
    pub extras: usize,
    pub coupling: usize,
    /// Sub-bands that are merged with the one before.
    pub merged: usize,
    /// New strategies, exponents and parameters after block 0.
    pub change: usize,
    pub delta: usize,
    pub skip: usize,
    /// Largest csnroffst; 0 makes every SNR offset 0 most of the time.
    pub snr: usize,
    /// Exponents D15 in full bandwidth everywhere.
    pub dense: bool,
    pub long_addbsi: bool,
    /// One narrow channel, so that the largest SNR offsets fit.
    pub narrow: bool,
}

impl Style {
    pub fn random(rng: &mut Rng) -> Self {
        let narrow = rng.chance(8);
        Style {
            fscod: rng.below(3),
            frmsizecod: rng.below(38),
            acmod: if narrow { 1 } else { rng.below(8) },
            bsid: rng.pick(&[8, 8, 6, 6, 0, 1, 2, 3, 4, 5, 7]),
            extras: rng.pick(&[0, 30, 60, 100]),
            coupling: rng.pick(&[0, 50, 80, 100]),
            merged: rng.pick(&[0, 10, 50, 100]),
            change: rng.pick(&[0, 20, 50, 100]),
            delta: rng.pick(&[0, 10, 50, 100]),
            skip: rng.pick(&[0, 20, 60]),
            snr: if narrow {
                63
            } else {
                rng.pick(&[0, 4, 10, 16, 25, 40, 63])
            },
            dense: !narrow && rng.chance(15),
            long_addbsi: rng.chance(15),
            narrow,
        }
    }

    /// A large frame, full of fields and mantissas.
    pub fn dense(rng: &mut Rng) -> Self {
        Style {
            fscod: 2,
            frmsizecod: 37,
            acmod: 7,
            change: 100,
            snr: 20,
            dense: true,
            narrow: false,
            skip: 0,
            ..Style::random(rng)
        }
    }

    /// Ask for fewer bits: taken after a frame that did not fit.
    fn thriftier(&mut self) {
        self.snr = self.snr * 2 / 3;
        self.change = self.change * 2 / 3;
        self.delta = self.delta * 2 / 3;
        self.skip = self.skip * 2 / 3;
        if self.snr == 0 {
            self.extras /= 2;
            self.dense = false;
            self.long_addbsi = false;
        }
        if self.change == 0 && self.extras < 10 {
            self.acmod = [1, 1, 2, 2, 3, 4, 5, 6][self.acmod];
        }
    }
}

pub struct Draw {
    pub frame: Vec<u8>,
    style: Style,
    rng: Rng,
    /// Values that end at or before this bit are kept from the run before.
    kept: usize,
    block_at: [usize; 6],
    /// Blocks in which everything is sent, after a reuse was refused there.
    send_all: [bool; 6],
    /// Facts of the run so far.
    nfchans: usize,
    coupled: usize,
    cplbegf: usize,
    exponent: i32,
    leak_sent: bool,
    /// The offsets now being drawn are all 0.
    silent: bool,
}

impl Source for &mut Draw {
    fn bytes(&self) -> usize {
        self.frame.len()
    }

    fn field(&mut self, name: &'static str, index: i16, block: i8, at: usize, width: usize) -> u32 {
        if name == "blksw" && index == 0 {
            self.block_at[block as usize] = at;
        }
        if at + width > self.kept {
            let value = self.choose(name, index, block, width) as u32;
            bits::set(&mut self.frame, at, width, value);
        }
        let value = bits::get(&self.frame, at, width);
        self.note(name, value);
        value
    }
}

impl Draw {
    fn note(&mut self, name: &str, value: u32) {
        match name {
            "acmod" => self.nfchans = NFCHANS[value as usize],
            "cplinu" => self.coupled = 0,
            "chincpl" => self.coupled += value as usize,
            "cplbegf" => self.cplbegf = value as usize,
            "cplleake" => self.leak_sent |= value == 1,
            "exps[ch][0]" | "lfeexps[0]" => self.exponent = value as i32,
            "cplabsexp" => self.exponent = 2 * value as i32,
            "exps[ch]" | "lfeexps" | "cplexps" => {
                self.exponent += (value / 25 + value % 25 / 5 + value % 5) as i32 - 6;
            }
            _ => {}
        }
    }

    /// A group of three steps that stay within 0 to 24; from a kept exponent that is outside of it, any.
    fn group(&mut self) -> usize {
        let mut exponent = self.exponent;
        let mut group = 0;
        for _ in 0..3 {
            let fits = |m: &i32| (0..=24).contains(&(exponent + m - 2));
            let steps: Vec<i32> = (0..5).filter(fits).collect();
            let Some(&step) = steps.get(self.rng.below(steps.len())) else {
                return LEVEL as usize;
            };
            exponent += step - 2;
            group = 5 * group + step as usize;
        }
        group
    }

    fn choose(&mut self, name: &str, index: i16, block: i8, width: usize) -> usize {
        let style = self.style.clone();
        let first = block == 0;
        let all = block >= 0 && (first || self.send_all[block as usize]);
        let rng = &mut self.rng;
        match name {
            "syncword" => 0x0B77,
            "fscod" => style.fscod,
            "frmsizecod" => style.frmsizecod,
            "bsid" => style.bsid,
            "acmod" => style.acmod,
            "compre" | "langcode" | "audprodie" | "compr2e" | "langcod2e" | "audprodi2e"
            | "xbsi1e" | "xbsi2e" | "timecod1e" | "timecod2e" | "dynrnge" | "dynrng2e" => {
                rng.chance(style.extras).into()
            }
            "addbsie" => (style.long_addbsi || rng.chance(style.extras / 2)).into(),
            "addbsil" if style.long_addbsi => [63, rng.below(64), rng.below(64)][rng.below(3)],
            "addbsil" => rng.below(4),
            "cplstre" => (first || rng.chance(style.change)).into(),
            "cplinu" => (self.nfchans >= 2 && rng.chance(style.coupling)).into(),
            "chincpl" => {
                let (left, missing) = (
                    self.nfchans - index as usize,
                    2usize.saturating_sub(self.coupled),
                );
                (left <= missing || rng.chance(70)).into()
            }
            "cplendf" => {
                let least = self.cplbegf.saturating_sub(2);
                least + rng.below(16 - least)
            }
            "cplbndstrc" => rng.chance(style.merged).into(),
            "cplcoe" => rng.chance(50 + style.change / 2).into(),
            "rematstr" => (first || rng.chance(style.change)).into(),
            "cplexpstr" | "chexpstr" | "lfeexpstr" => match all || rng.chance(style.change) {
                false => 0,
                true if style.dense || width == 1 => 1,
                true if style.snr == 0 => 3,
                true => 1 + rng.below(3),
            },
            "chbwcod" if style.dense => 60,
            "chbwcod" if style.snr == 0 || style.narrow => rng.below(6),
            "chbwcod" => [60, rng.below(61), rng.below(20)][rng.below(3)],
            "cplabsexp" => rng.below(14),
            "exps[ch]" | "lfeexps" | "cplexps" => self.group(),
            "baie" | "snroffste" => (first || rng.chance(style.change)).into(),
            "csnroffst" => {
                self.silent = style.snr == 0 || rng.chance(10);
                if self.silent {
                    0
                } else {
                    rng.below(style.snr + 1)
                }
            }
            "fsnroffst" | "cplfsnroffst" | "lfefsnroffst" if self.silent => 0,
            "cplleake" => (!self.leak_sent && (all || style.snr > 0) || rng.chance(30)).into(),
            "deltbaie" => rng.chance(style.delta).into(),
            "deltbae" | "cpldeltbae" if first => 1 + rng.below(2),
            "deltbae" | "cpldeltbae" => rng.below(3),
            "skiple" => rng.chance(style.skip).into(),
            "skipl" => [0, rng.below(4), rng.below(4), rng.below(40)][rng.below(4)],
            _ => rng.below(1 << width),
        }
    }

    /// One run of the parser over the values kept and drawn.
    fn run(&mut self, room: &mut [i32]) -> (Result<usize, No>, usize, usize) {
        self.leak_sent = false;
        let mut cur = Cursor::new(&mut *self, room);
        let verdict = ac3::parse(&mut cur).map(|s| s.audio_end);
        (verdict, cur.count, cur.pos)
    }
}

/// A frame that the parser accepts, or none after many tries.
pub fn accepted(style: Style, rng: &mut Rng) -> Option<Vec<u8>> {
    let bytes = 2 * ac3_frame_words(style.fscod, style.frmsizecod)?;
    let frame = rng.bytes(bytes);
    drawn(frame, 0, style, rng)
}

impl Draw {
    /// The fields that end at or before bit `from` are those of `frame`, and only the rest will be drawn.
    fn after(frame: Vec<u8>, from: usize, style: Style, rng: &mut Rng) -> Self {
        Draw {
            frame,
            style,
            rng: Rng(rng.draw()),
            kept: from,
            block_at: [0; 6],
            send_all: [false; 6],
            nfchans: 0,
            coupled: 0,
            cplbegf: 0,
            exponent: 0,
            leak_sent: false,
            silent: false,
        }
    }
}

/// One run of the parser over the fields of `frame` that end at or before bit `from`, and over drawn ones, which are written into it, with
/// what it answers. Accepted or refused, the frame then holds what was asked for, so this is the answer to it.
pub fn tried(
    frame: &mut Vec<u8>,
    from: usize,
    style: Style,
    rng: &mut Rng,
    room: &mut [i32],
) -> Answer {
    let mut draw = Draw::after(std::mem::take(frame), from, style, rng);
    let mut cur = Cursor::new(&mut draw, room);
    let verdict = ac3::parse(&mut cur);
    let answer = Answer {
        rows: cur.count,
        bit: cur.pos,
        verdict,
    };
    *frame = draw.frame;
    answer
}

/// A frame that the parser accepts, with the fields of `frame` that end at or before bit `from`; none after many tries, or where one of
/// them is refused.
pub fn drawn(frame: Vec<u8>, from: usize, style: Style, rng: &mut Rng) -> Option<Vec<u8>> {
    let bytes = frame.len();
    let mut draw = Draw::after(frame, from, style, rng);
    let mut room = vec![0; MANY_ROWS * ROW];
    for attempt in 0..120 {
        let (verdict, rows, end) = draw.run(&mut room);
        match verdict {
            Ok(audio_end) => {
                if audio_end + 18 <= 8 * bytes && draw.rng.chance(50) {
                    seal(&mut draw.frame);
                }
                return Some(draw.frame);
            }
            Err(_) if from > 0 && end <= from => return None,
            Err(No { number: 6, .. }) => {
                draw.style.thriftier();
                draw.kept = from;
                draw.send_all = [false; 6];
            }
            Err(_) => {
                // A reuse without cover: draw this block again, in the end with everything sent.
                let block = room[ROW * (rows - 1) + row_at::BLOCK].max(0) as usize;
                draw.kept = draw.block_at[block].max(from);
                draw.send_all[block] = attempt % 4 == 3;
            }
        }
    }
    None
}

/// Close the frame as encoders do: auxdatae 0 and both checksums right.
pub fn seal(frame: &mut [u8]) {
    let bits = 8 * frame.len();
    bits::set(frame, bits - 18, 2, 0);
    fix_crcs(Codec::Ac3, frame);
}
