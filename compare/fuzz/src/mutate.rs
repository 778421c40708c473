//! Another input of a given one. Bytes changed at random are no frame: fields are changed here, those of rare names as often as others, and
//! what follows is drawn anew, so that a good share is accepted.

use crate::input::{Input, SUFFICIENT};
use judge::bits;
use judge::cut;
use judge::draw::{accepted, drawn, Style};
use judge::layout::{row_at, ROW};
use judge::names;
use judge::rng::Rng;
use judge::tables::ac3_frame_words;
use std::collections::BTreeSet;

/// A row of a name chosen first, so that rare names have their turn.
fn pick<'a>(rng: &mut Rng, rows: &'a [i32]) -> Option<&'a [i32]> {
    let names: BTreeSet<i32> = rows.chunks(ROW).map(|r| r[row_at::NAME]).collect();
    let name = *names.iter().nth(rng.below(names.len().max(1)))?;
    let of_name: Vec<_> = rows
        .chunks(ROW)
        .filter(|r| r[row_at::NAME] == name)
        .collect();
    Some(of_name[rng.below(of_name.len())])
}

/// Writes another value into a field, or into the first bits of a span; gives the bit after it.
fn rewrite(rng: &mut Rng, capture: &mut [u8], place: usize, row: &[i32]) -> usize {
    let (at, width) = (row[row_at::POS] as usize, row[row_at::WIDTH] as usize);
    let written = width.min(16);
    let first = 8 * place + at;
    let value = match written {
        1 => 1 - bits::get(capture, first, 1),
        _ => rng.below(1 << written) as u32,
    };
    if written > 0 {
        bits::set(capture, first, written, value);
    }
    at + if names::of(row[row_at::NAME]).role.is_span() {
        width
    } else {
        written
    }
}

/// As many bytes as fscod and frmsizecod say, if they say any.
fn fit(rng: &mut Rng, frame: &mut Vec<u8>) {
    let [fscod, frmsizecod] =
        [(32, 2), (34, 6)].map(|(at, width)| bits::get(frame, at, width) as usize);
    if let Some(words) = ac3_frame_words(fscod, frmsizecod) {
        while frame.len() < 2 * words {
            frame.push(rng.draw() as u8);
        }
        frame.truncate(2 * words);
    }
}

/// A style, most often of a small frame: more of them can be run.
fn style(rng: &mut Rng) -> Style {
    let mut style = Style::random(rng);
    if rng.chance(90) {
        style.frmsizecod = rng.below(8);
    }
    style
}

fn fresh(rng: &mut Rng) -> Option<Input> {
    let style = style(rng);
    accepted(style, rng).map(Input::of_frame)
}

/// A field changed; in two of three times all that follows is drawn anew.
fn changed(rng: &mut Rng, input: &Input, room: &mut [i32]) -> Option<Input> {
    let mut changed = input.clone();
    let rows = cut::answer(&input.capture, input.place(), room).rows;
    let row = pick(rng, &room[..ROW * rows])?;
    let from = rewrite(rng, &mut changed.capture, input.place(), row);
    if rng.chance(67) {
        changed.place = 0;
        let mut frame = changed.capture.split_off(input.place());
        fit(rng, &mut frame);
        let style = style(rng);
        changed.capture = drawn(frame.clone(), from, style, rng).unwrap_or(frame);
    }
    Some(changed)
}

/// Another place, another room, other bytes around the frame, or bits of it turned.
fn around(rng: &mut Rng, input: &Input, room: &mut [i32]) -> Input {
    let mut input = input.clone();
    let bytes = input.capture.len();
    match rng.below(8) {
        0 => {
            let rows = cut::answer(&input.capture, input.place(), room).rows;
            input.rows = rng.below(rows + 2) as u16;
        }
        1 => input.rows = SUFFICIENT,
        2 => input.left_over = rng.below(ROW) as u8,
        3 => {
            let before = rng.below(9);
            input.capture.splice(..0, rng.bytes(before));
            input.place = input.place.saturating_add(before as u8);
        }
        4 => input.capture.truncate(rng.below(bytes + 1)),
        5 => {
            let after = rng.below(9);
            input.capture.extend(rng.bytes(after));
        }
        6 => input.place = rng.below(256) as u8,
        _ => {
            for _ in 0..=rng.below(4) {
                let at = rng.below(8 * bytes.max(1));
                if let Some(byte) = input.capture.get_mut(at / 8) {
                    *byte ^= 128 >> (at % 8);
                }
            }
        }
    }
    input
}

/// None where no frame of the style that was drawn is found.
pub fn mutated(rng: &mut Rng, input: &Input, room: &mut [i32]) -> Option<Input> {
    match rng.below(100) {
        0..5 => fresh(rng),
        5..20 => Some(around(rng, input, room)),
        _ => changed(rng, input, room).or_else(|| fresh(rng)),
    }
}
