//! level_bench FRAMES PASSES [WAY]: goes PASSES times over the frames of judge/frames/FRAMES.ac3, in every way or in one (so that its
//! instructions can be counted), and prints the best pass of each. Each pass writes another level.
//!
//! The ways: `correct`, the archive's correction; `parse`, the archive's parse alone; `crc`, the two registers of a frame by crc16 of the
//! published crc.rs; `fix`, the published fix_crcs, which solves for crc1. Says whether a correction writes what the published one does.

use compare_level::layout::{answer_at, row_at};
use compare_level::layout::{CHANGE_NUMBERS, MOST_CHANGES, MOST_ROWS, ROW_NUMBERS};
use compare_level::raw;
use judge::bits;
use judge::crc::crc16;
use judge::frame::{ac3_five_eighths_bits, fix_crcs, Codec};
use judge::frames;
use judge::level::TAIL;
use judge::names::number;
use std::hint::black_box;
use std::time::Instant;

/// The best of some passes over so many frames, in us a frame.
fn best(way: &str, passes: usize, frames: usize, mut pass: impl FnMut(usize)) {
    let least = (0..passes)
        .map(|i| {
            let began = Instant::now();
            pass(1 + i % 31);
            began.elapsed().as_secs_f64()
        })
        .fold(f64::INFINITY, f64::min);
    let each = least * 1e6 / frames as f64;
    println!("{way}: {each:.1} us a frame, best of {passes} passes over {frames} frames");
}

fn main() {
    let args: Vec<String> = std::env::args().skip(1).collect();
    let [name, passes, way @ ..] = &args[..] else {
        eprintln!("usage: level_bench FRAMES PASSES [WAY]");
        std::process::exit(2);
    };
    let kept = frames::kept();
    let file = kept.iter().find(|(of, _)| of == name);
    let mut stream = file.expect("a file of judge/frames").1.clone();
    let passes = passes.parse().expect("PASSES is a number");
    let wanted = |this: &str| way.first().is_none_or(|only| only == this);
    let mut rows = vec![0i32; ROW_NUMBERS * MOST_ROWS];
    let mut changes = [0; MOST_CHANGES * CHANGE_NUMBERS];
    // Places, lengths, and the bit at which the level stands, of the frames that can be corrected.
    let mut list = Vec::new();
    let mut place = 0;
    while place < stream.len() {
        let (answer, written) = raw::parse(&stream, place, &mut rows);
        let [bytes, end] = [answer_at::BYTES, answer_at::AUDIO_END].map(|at| answer[at] as usize);
        let mut each = written.chunks(ROW_NUMBERS);
        let level = each.find(|row| row[row_at::NAME] == number("dialnorm"));
        if end + TAIL <= 8 * bytes {
            let at = level.expect("every header has it")[row_at::POSITION];
            list.push((place, bytes, at as usize));
        }
        place += bytes;
    }
    if wanted("parse") {
        best("parse", passes, list.len(), |_| {
            for (place, _, _) in &list {
                let (answer, _) = raw::parse(black_box(&stream), *place, &mut rows);
                assert_eq!(answer[0], 0);
            }
        });
    }
    if wanted("crc") {
        best("crc", passes, list.len(), |_| {
            for (place, bytes, _) in &list {
                let frame = &black_box(&stream)[*place..*place + bytes];
                let five = ac3_five_eighths_bits(*bytes) / 8;
                black_box((crc16(0, &frame[2..five]), crc16(0, &frame[2..])));
            }
        });
    }
    if wanted("fix") {
        best("fix", passes, list.len(), |level| {
            for (place, bytes, at) in &list {
                let frame = &mut stream[*place..*place + bytes];
                bits::set(frame, *at, 5, level as u32);
                fix_crcs(Codec::Ac3, black_box(frame));
            }
        });
    }
    let fixed = stream.clone();
    if wanted("correct") {
        best("correct", passes, list.len(), |level| {
            for (place, _, _) in &list {
                let capture = black_box(&mut stream);
                let (answer, _) = raw::correct(capture, *place, 1, level, &mut rows, &mut changes);
                assert_eq!(answer[0], 0);
            }
        });
    }
    if way.is_empty() {
        println!(
            "the port writes what the original does: {}",
            stream == fixed
        );
    }
}
