//! bench FILE PASSES [WAY]: parses every frame of FILE, PASSES times, in every way or in one (for callgrind), and prints the best pass of
//! each. The ways: `port`, the archive alone; `header`, the archive's header alone; `apart`, its header and then its blocks; `parser`, the
//! Rust crate's `Parser` and the gain words by their role; `fields`, the same and every field; `bsi`, `Parser` and every field of the
//! header alone; `parse`, the crate's `parse`, which makes a list; `rust`, the original.

use compare_parse::layout::{answer_at, header_answer_at, MOST_ROWS, ROW_NUMBERS};
use compare_parse::raw;
use ferrysprig::{Parser, Role};
use judge::tables::ac3_frame_words;
use std::hint::black_box;
use std::time::Instant;

fn frames(stream: &[u8]) -> Vec<&[u8]> {
    let mut frames = Vec::new();
    let mut at = 0;
    while at + 6 <= stream.len() {
        let code = stream[at + 4];
        let words =
            ac3_frame_words(usize::from(code >> 6), usize::from(code & 63)).expect("a frame");
        frames.push(&stream[at..at + 2 * words]);
        at += 2 * words;
    }
    frames
}

fn best(name: &str, passes: usize, frames: &[&[u8]], mut one: impl FnMut(&[u8])) {
    let least = (0..passes)
        .map(|_| {
            let began = Instant::now();
            frames.iter().for_each(|f| one(f));
            began.elapsed().as_nanos() as f64 / frames.len() as f64
        })
        .fold(f64::INFINITY, f64::min);
    println!(
        "{name}: {:.1} us a frame, best of {passes} passes over {} frames",
        least / 1000.0,
        frames.len()
    );
}

fn main() {
    let args: Vec<String> = std::env::args().skip(1).collect();
    let stream = std::fs::read(&args[0]).expect("a file");
    let passes = args[1].parse().expect("PASSES is a number");
    let wanted = |way: &str| args.get(2).is_none_or(|only| only == way);
    let frames = frames(&stream);
    if wanted("port") {
        let mut rows = vec![0i32; ROW_NUMBERS * MOST_ROWS];
        best("port", passes, &frames, |f| {
            let (answer, _) = raw::parse(black_box(f), 0, &mut rows);
            assert_eq!(black_box(answer)[answer_at::REFUSAL], 0);
        });
    }
    if wanted("header") {
        let mut rows = vec![0i32; ROW_NUMBERS * MOST_ROWS];
        best("header", passes, &frames, |f| {
            let (answer, _) = raw::header(black_box(f), 0, &mut rows);
            assert_eq!(black_box(answer)[header_answer_at::REFUSAL], 0);
        });
    }
    if wanted("apart") {
        let mut rows = vec![0i32; ROW_NUMBERS * MOST_ROWS];
        best("apart", passes, &frames, |f| {
            let (header, _) = raw::header(black_box(f), 0, &mut rows);
            let (answer, _) = raw::blocks(black_box(f), 0, &mut rows, &black_box(header));
            assert_eq!(black_box(answer)[answer_at::REFUSAL], 0);
        });
    }
    if wanted("parser") {
        let mut parser = Parser::new();
        best("parser", passes, &frames, |f| {
            let frame = parser.parse(black_box(f)).expect("accepted");
            frame.all(Role::Dynrng(0)).for_each(|gain| {
                black_box(gain.value);
            });
        });
    }
    if wanted("fields") {
        let mut parser = Parser::new();
        best("fields", passes, &frames, |f| {
            let frame = parser.parse(black_box(f)).expect("accepted");
            frame.fields.for_each(|field| {
                black_box(&field);
            });
        });
    }
    if wanted("bsi") {
        let mut parser = Parser::new();
        best("bsi", passes, &frames, |f| {
            let header = parser.header(black_box(f)).expect("accepted");
            header.fields.for_each(|field| {
                black_box(&field);
            });
        });
    }
    if wanted("parse") {
        best("parse", passes, &frames, |f| {
            black_box(ferrysprig::parse(black_box(f))).expect("accepted");
        });
    }
    if wanted("rust") {
        best("rust", passes, &frames, |f| {
            black_box(judge::ac3::parse(black_box(f))).expect("accepted");
        });
    }
}
