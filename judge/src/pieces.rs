//! What captures are made of: accepted frames, inputs that are refused, parts of frames, and bytes between them.

use crate::agree::Judge;
use crate::corners;
use crate::craft::{sized, Asked};
use crate::cut::Summary;
use crate::draw::{accepted, Style};
use crate::frames;
use crate::layout::{row_at, ROW};
use crate::names::number;
use crate::rng::Rng;
use std::collections::BTreeMap;

/// The sync word.
pub const SYNC: [u8; 2] = [0x0B, 0x77];

pub struct Pieces {
    pub rng: Rng,
    pub judge: Judge,
    /// Accepted frames, most of them short.
    pub frames: Vec<Vec<u8>>,
    /// Inputs that are refused, by their number.
    pub refused: BTreeMap<u32, Vec<Vec<u8>>>,
}

impl Pieces {
    /// None as yet.
    pub fn new(seed: u64) -> Self {
        Pieces {
            rng: Rng(seed),
            judge: Judge::default(),
            frames: Vec::new(),
            refused: BTreeMap::new(),
        }
    }

    /// The frames and the refused inputs that captures are made of.
    pub fn gather(&mut self) {
        for corner in corners::all() {
            if corner.place > 0 || corner.rows.is_some() || corner.capture.len() > 400 {
                continue;
            }
            match corner.number {
                0 => self.frames.push(corner.capture),
                n => self.refused.entry(n).or_default().push(corner.capture),
            }
        }
        for i in 0..40 {
            let mut style = Style::random(&mut self.rng);
            if i % 8 > 0 {
                style.frmsizecod = self.rng.below(8);
            }
            self.frames.extend(accepted(style, &mut self.rng));
        }
        for (_, stream) in frames::kept() {
            match self.judge.ample(&stream, 0).answer.verdict {
                Ok(Summary { bytes, .. }) if bytes < 700 => {
                    self.frames.push(stream[..bytes].to_vec());
                }
                _ => {}
            }
        }
    }

    pub fn frame(&mut self) -> Vec<u8> {
        let at = self.rng.below(self.frames.len());
        self.frames[at].clone()
    }

    /// A frame of 128 bytes.
    pub fn short_frame(&mut self) -> Vec<u8> {
        loop {
            let frame = self.frame();
            if frame.len() == 128 {
                return frame;
            }
        }
    }

    /// A frame with a skip field that has another frame in it, and where that begins.
    pub fn nested(&mut self) -> (Vec<u8>, usize) {
        let inner = self.short_frame();
        let block = self.rng.below(6) as i8;
        let mut frame = sized(0, 10, &|a: &Asked| match a.name {
            "skiple" if a.block == block => Some(1),
            "skipl" => Some(inner.len() as u32 + 1),
            _ => None,
        });
        let rows = self.judge.ample(&frame, 0).rows;
        let skip = number("skipfld");
        let mut spans = rows.chunks(ROW).filter(|r| r[row_at::NAME] == skip);
        let at = spans.next().expect("a skip field")[row_at::POS] as usize;
        let place = at.div_ceil(8);
        frame[place..place + inner.len()].copy_from_slice(&inner);
        (frame, place)
    }

    pub fn refused_one(&mut self) -> Vec<u8> {
        let numbers: Vec<u32> = self.refused.keys().copied().collect();
        let of_number = &self.refused[&self.rng.pick(&numbers)];
        of_number[self.rng.below(of_number.len())].clone()
    }

    /// A frame that is refused after more rows than any of 128 bytes has that is crafted plainly.
    pub fn refused_late(&mut self) -> Vec<u8> {
        loop {
            let mut frame = self.frame();
            let rows = self.judge.ample(&frame, 0).rows;
            let last = &rows[rows.len() - ROW..];
            let at = last[row_at::POS] as usize / 8;
            frame[at.saturating_sub(self.rng.below(30))..].fill(0xFF);
            let damaged = self.judge.ample(&frame, 0);
            if damaged.answer.verdict.is_err() && damaged.answer.rows > 100 {
                return frame;
            }
        }
    }

    /// A part of a capture.
    pub fn piece(&mut self) -> Vec<u8> {
        let length = 1 + self.rng.below(40);
        match self.rng.below(20) {
            0..9 => self.frame(),
            9 => self.rng.bytes(length),
            10 => vec![0; length],
            11 => [&SYNC[..], &self.rng.bytes(length % 10)].concat(),
            12 => SYNC.repeat(1 + length % 12),
            13 => vec![self.rng.pick(&SYNC); 1 + length % 5],
            14 => {
                // The beginning or the end of a frame.
                let frame = self.frame();
                let at = self.rng.below(frame.len());
                match self.rng.chance(60) {
                    true => frame[..at].to_vec(),
                    false => frame[at..].to_vec(),
                }
            }
            15 => {
                // A frame with some bytes lost.
                let mut frame = self.frame();
                let at = self.rng.below(frame.len());
                let end = frame.len().min(at + 1 + self.rng.below(60));
                frame.drain(at..end);
                frame
            }
            16 => self.refused_one(),
            17 => self.refused_late(),
            18 => {
                // A bit of a frame turned.
                let mut frame = self.frame();
                let at = self.rng.below(8 * frame.len());
                frame[at / 8] ^= 128 >> (at % 8);
                frame
            }
            _ => {
                let (mut frame, _) = self.nested();
                if self.rng.chance(70) {
                    refuse(&mut frame);
                }
                frame
            }
        }
    }
}

/// Gives a frame bsid 31, so that it is refused.
pub fn refuse(frame: &mut [u8]) {
    frame[5] |= 0xF8;
}
