//! index_bench CAPTURE FRAMES PASSES [WAY]: makes the index of a capture of so many frames, PASSES times, in both ways or in one (so that its
//! instructions can be counted), and prints the best pass of each. Says whether both find the same.
//!
//! The ways: `port`, the archive; `rust`, the same walk over the original parser. A third makes none: with `extend`, the archive extends the
//! index of all frames of a clean capture but the last by that frame. Captures are those of `CAPTURES`.

use compare_index::layout::{INDEX_ENTRY_NUMBERS, LEAST_BYTES, MOST_ROWS, ROW_NUMBERS};
use compare_index::raw;
use judge::ac3;
use judge::error::Error;
use judge::frames;
use judge::syntax::Role;
use std::hint::black_box;
use std::time::Instant;

type Maker = fn(usize) -> Vec<u8>;

const CAPTURES: [(&str, Maker); 4] = [
    // Frames of 5.1 at 448 kbit/s, and of 2/0 at 192.
    ("clean-a", |frames| clean("speed-a", frames)),
    ("clean-b", |frames| clean("speed-b", frames)),
    // The same with every hundredth packet of 1,316 bytes lost.
    ("lost-a", |frames| lost("speed-a", frames)),
    ("lost-b", |frames| lost("speed-b", frames)),
];

/// Whole frames, which in these files are all of one length.
fn clean(name: &str, frames: usize) -> Vec<u8> {
    let kept = frames::kept();
    let file = kept.iter().find(|(of, _)| of == name);
    let stream = &file.expect("a file of frames").1;
    let length = ac3::parse(stream).expect("a frame").bytes;
    stream
        .iter()
        .copied()
        .cycle()
        .take(frames * length)
        .collect()
}

fn lost(name: &str, frames: usize) -> Vec<u8> {
    let whole = clean(name, frames);
    let packets = whole.chunks(1316).enumerate();
    let kept = packets.filter(|(i, _)| i % 100 != 99);
    kept.flat_map(|(_, packet)| packet).copied().collect()
}

/// The walk in Rust over the original parser.
fn by_rust(capture: &[u8], index: &mut Vec<usize>) {
    index.clear();
    let mut place = 0;
    while place < capture.len() {
        match ac3::parse(&capture[place..]) {
            Ok(frame) => {
                let level = |programme| {
                    let mut fields = frame.fields.iter();
                    let field = fields.find(|field| field.role == Role::Dialnorm(programme));
                    field.map_or(0, |field| field.value as usize)
                };
                let acmod = usize::from(frame.acmod);
                index.extend([place, frame.bytes, acmod, level(0), level(1)]);
                place += frame.bytes;
            }
            Err(Error::Invalid(text))
                if text == "short AC-3 frame" || text == "truncated AC-3 frame" =>
            {
                return
            }
            Err(_) => place += 1,
        }
    }
}

/// The best of some passes, in frames a second.
fn best(way: &str, passes: usize, frames: usize, mut pass: impl FnMut()) {
    let least = (0..passes)
        .map(|_| {
            let began = Instant::now();
            pass();
            began.elapsed().as_secs_f64()
        })
        .fold(f64::INFINITY, f64::min);
    let rate = frames as f64 / least;
    println!("{way}: {rate:.0} frames/s, best of {passes} passes over {frames} frames");
}

fn main() {
    let args: Vec<String> = std::env::args().skip(1).collect();
    let [capture, frames, passes, way @ ..] = &args[..] else {
        eprintln!("usage: index_bench CAPTURE FRAMES PASSES [WAY]");
        std::process::exit(2);
    };
    let named = CAPTURES.iter().find(|(name, _)| name == capture);
    let (_, make) = named.expect("CAPTURE is one of those in CAPTURES");
    let frames: usize = frames.parse().expect("FRAMES is a number");
    let capture = make(frames);
    let passes = passes.parse().expect("PASSES is a number");
    let wanted = |this: &str| way.first().is_none_or(|only| only == this);
    let mut rows = vec![0i32; ROW_NUMBERS * MOST_ROWS];
    let mut index = vec![0usize; INDEX_ENTRY_NUMBERS * (capture.len() / LEAST_BYTES)];
    let (mut entries, mut found) = (0, Vec::new());
    if wanted("port") {
        best("port", passes, frames, || {
            let answer = raw::index(black_box(&capture), &mut rows, &mut index, 0);
            assert_eq!(answer[0], 0);
            entries = answer[1];
        });
        println!("{entries} entries");
    }
    if wanted("rust") {
        best("rust", passes, frames, || {
            by_rust(black_box(&capture), &mut found)
        });
    }
    if way.is_empty() {
        let same = index[..INDEX_ENTRY_NUMBERS * entries] == found;
        println!("the port finds the same as the original: {same}");
    }
    if way.first().is_some_and(|only| only == "extend") {
        // All frames have one length, so the last but one is known, and no index need be made before.
        let length = capture.len() / frames;
        let last = capture.len() - 2 * length;
        let mut one = Vec::new();
        by_rust(&capture[last..last + length], &mut one);
        one[0] = last;
        let at = INDEX_ENTRY_NUMBERS * (frames - 2);
        index[at..at + INDEX_ENTRY_NUMBERS].copy_from_slice(&one);
        best("extend", passes, 1, || {
            let answer = raw::index(black_box(&capture), &mut rows, &mut index, frames - 1);
            assert_eq!(answer, [0, frames]);
        });
    }
}
