//! Moves the fields of an accepted frame so that a given bit comes to stand near the frame's end:
//! by the length of block 0's skip field, by the frame's size, and, since a skip field moves what
//! follows by whole bytes, by turning one or two optional parts on or off.

use crate::bits::{self, Writer};
use crate::layout::{row_at, ROW};
use crate::names::number;
use crate::tables::ac3_frame_words;
use std::ops::Range;

/// A flag and the bits that follow it when it is 1.
struct Part {
    at: usize,
    on: bool,
    content: usize,
}

impl Part {
    /// The bits that follow the flag now.
    fn present(&self) -> usize {
        if self.on {
            self.content
        } else {
            0
        }
    }
}

/// Parts whose presence moves what follows by other than whole bytes; skip fields among them.
fn parts(capture: &[u8], rows: &[i32]) -> Vec<Part> {
    let lengths = [
        ("audprodie", 7),
        ("audprodi2e", 7),
        ("timecod1e", 14),
        ("timecod2e", 14),
        ("skiple", 9),
    ]
    .map(|(name, content)| (number(name), content));
    let mut parts = Vec::new();
    for row in rows.chunks(ROW) {
        let Some((name, content)) = lengths.iter().find(|(name, _)| *name == row[row_at::NAME])
        else {
            continue;
        };
        let (at, on) = (row[row_at::POS] as usize, row[row_at::VALUE] == 1);
        let skipped = match on && *name == number("skiple") {
            true => 8 * bits::get(capture, at + 1, 9) as usize,
            false => 0,
        };
        let content = content + skipped;
        parts.push(Part { at, on, content });
    }
    parts
}

/// The frame with bit `from`, which stands behind block 0's skip field, at one of the `places`
/// before the frame's end; none if it cannot be moved there.
pub fn moved(capture: &[u8], rows: &[i32], from: usize, places: Range<usize>) -> Option<Vec<u8>> {
    let parts = parts(capture, rows);
    let block_0 = rows
        .chunks(ROW)
        .find(|r| r[row_at::NAME] == number("skiple"))
        .expect("in every block")[row_at::POS] as usize;
    let grower = parts.iter().position(|p| p.at == block_0).expect("a part");
    let before: Vec<usize> = (0..parts.len())
        .filter(|&i| parts[i].at < from && i != grower)
        .collect();
    let mut choices: Vec<Vec<usize>> = vec![Vec::new()];
    choices.extend(before.iter().map(|&i| vec![i]));
    for (n, &i) in before.iter().enumerate() {
        choices.extend(before[..n].iter().map(|&j| vec![j, i]));
    }
    let fscod = bits::get(capture, 32, 2) as usize;
    for turned in choices {
        // Where `from` stands when block 0 skips nothing.
        let mut base = from + 9 - parts[grower].present();
        for &i in &turned {
            base = base + parts[i].content - 2 * parts[i].present();
        }
        for (code, place) in (0..38).flat_map(|c| places.clone().map(move |p| (c, p))) {
            let limit = 16 * ac3_frame_words(fscod, code).expect("a size");
            let Some(grown) = limit.checked_sub(place + base) else {
                continue;
            };
            if grown % 8 != 0 || grown / 8 > 511 {
                continue;
            }
            let mut out = Writer::new();
            out.copy(capture, 0, 34);
            out.put(6, code as u32);
            let mut read = 40;
            for (i, part) in parts.iter().enumerate() {
                out.copy(capture, read, part.at - read);
                read = part.at;
                if i == grower {
                    out.put(10, 1 << 9 | (grown / 8) as u32);
                    out.zeros(grown);
                } else if turned.contains(&i) {
                    out.put(1, u32::from(!part.on));
                    out.zeros(part.content - part.present());
                } else {
                    continue;
                }
                read += 1 + part.present();
            }
            let rest = 8 * capture.len() - read;
            if out.len() < limit {
                out.copy(capture, read, rest.min(limit - out.len()));
            }
            if out.len() < limit {
                out.zeros(limit - out.len());
            }
            let mut frame = out.into_bytes();
            frame.truncate(limit / 8);
            return Some(frame);
        }
    }
    None
}
