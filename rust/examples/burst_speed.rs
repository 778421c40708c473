//! burst_speed FILE [TURNS]: times writing and reading bursts of a file's first frame beside the parse and a plain copy of 6,144 bytes, in
//! one run.

use ferrysprig::{burst, MOST_BYTES, MOST_ROWS, ROW_NUMBERS};
use std::hint::black_box;
use std::time::Instant;

fn main() {
    let arguments: Vec<String> = std::env::args().collect();
    let path = arguments.get(1).expect("usage: burst_speed FILE [TURNS]");
    let stream = std::fs::read(path).expect("a file of frames");
    let turns = arguments
        .get(2)
        .map_or(20_000, |n| n.parse().expect("a number of turns"));
    let mut rows = vec![0; MOST_ROWS * ROW_NUMBERS];
    let mut out = vec![0; burst::BYTES];
    let mut back = vec![0; MOST_BYTES];
    let written = burst::write(&stream, 0).expect("an accepted frame");
    timed("write", turns, || {
        let burst = burst::write_into(black_box(&stream), 0, &mut rows, &mut out);
        black_box(burst).unwrap();
    });
    timed("read", turns, || {
        let frame = burst::read_into(black_box(&written), &mut rows, &mut back);
        black_box(frame).unwrap();
    });
    timed("parse", turns, || {
        let frame = ferrysprig::parse_into(black_box(&stream), 0, &mut rows);
        black_box(frame).unwrap();
    });
    timed("copy of 6,144 bytes", turns, || {
        out.copy_from_slice(black_box(&written));
        black_box(&mut out);
    });
}

fn timed(what: &str, turns: u32, mut work: impl FnMut()) {
    let start = Instant::now();
    for _ in 0..turns {
        work();
    }
    let one = start.elapsed().as_secs_f64() / f64::from(turns);
    let rate = burst::BYTES as f64 / one / 1e6;
    println!(
        "{what}: {:.2} us, {rate:.0} MB of bursts a second",
        one * 1e6
    );
}
