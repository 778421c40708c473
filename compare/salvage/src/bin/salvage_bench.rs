//! salvage_bench CAPTURE BYTES PASSES [WAY]: salvages a capture of some BYTES, PASSES times, in every way or in one (so that its
//! instructions can be counted), and prints the best pass of each. Says whether the ways find the same frames and gaps.
//!
//! The ways: `port`, the archive; `rust`, the same walk over the original parser; `sync`, that walk where it looks for the sync word before
//! it parses. Captures are those of `CAPTURES`.

use compare_salvage::layout::{ENTRY_NUMBERS, LEAST_BYTES, MOST_ROWS, ROW_NUMBERS};
use compare_salvage::raw;
use judge::frames;
use judge::rng::Rng;
use std::hint::black_box;
use std::time::Instant;

type Maker = fn(usize) -> Vec<u8>;

const CAPTURES: [(&str, Maker); 8] = [
    // Frames of 5.1 at 448 kbit/s, and of 2/0 at 192.
    ("clean-a", |bytes| clean("speed-a", bytes)),
    ("clean-b", |bytes| clean("speed-b", bytes)),
    // The same with every hundredth packet of 1,316 bytes lost.
    ("lost-a", |bytes| lost("speed-a", bytes)),
    ("lost-b", |bytes| lost("speed-b", bytes)),
    ("random", |bytes| Rng(1).bytes(bytes)),
    ("zeros", |bytes| vec![0; bytes]),
    ("sync", |bytes| repeated(&[0x0B, 0x77], bytes)),
    // The most rows for a byte that a search among patterns of 6 to 18 bytes found: every ninth place has a sync word, and is parsed for
    // long before it is refused.
    ("deep", |bytes| {
        repeated(
            &[0x0B, 0x77, 0xE1, 0xED, 0x65, 0x47, 0xBD, 0xA1, 0xB7],
            bytes,
        )
    }),
];

fn repeated(pattern: &[u8], bytes: usize) -> Vec<u8> {
    pattern.iter().copied().cycle().take(bytes).collect()
}

/// Whole frames, some bytes of them.
fn clean(name: &str, bytes: usize) -> Vec<u8> {
    let kept = frames::kept();
    let file = kept.iter().find(|(of, _)| of == name);
    let stream = &file.expect("a file of frames").1;
    stream.repeat(bytes.div_ceil(stream.len()))
}

fn lost(name: &str, bytes: usize) -> Vec<u8> {
    let whole = clean(name, bytes);
    let packets = whole.chunks(1316).enumerate();
    let kept = packets.filter(|(i, _)| i % 100 != 99);
    kept.flat_map(|(_, packet)| packet).copied().collect()
}

/// The walk in Rust: what it lists and the frames.
#[derive(Default, PartialEq, Eq)]
struct Found {
    list: Vec<[usize; ENTRY_NUMBERS]>,
    frames: Vec<u8>,
}

fn by_rust(capture: &[u8], looks: bool, found: &mut Found) {
    found.list.clear();
    found.frames.clear();
    let (mut place, mut first) = (0, 0);
    while place < capture.len() {
        let rest = &capture[place..];
        if looks && !rest.starts_with(&[0x0B, 0x77]) {
            place += 1;
            continue;
        }
        match judge::ac3::parse(rest) {
            Ok(frame) => {
                if first < place {
                    found.list.push([1, first, place - first]);
                }
                found.list.push([0, place, frame.bytes]);
                found.frames.extend(&rest[..frame.bytes]);
                place += frame.bytes;
                first = place;
            }
            Err(_) => place += 1,
        }
    }
    if first < place {
        found.list.push([1, first, place - first]);
    }
}

/// The best of some passes, in MB a second.
fn best(way: &str, passes: usize, bytes: usize, mut pass: impl FnMut()) {
    let least = (0..passes)
        .map(|_| {
            let began = Instant::now();
            pass();
            began.elapsed().as_secs_f64()
        })
        .fold(f64::INFINITY, f64::min);
    let rate = bytes as f64 / least / 1e6;
    println!("{way}: {rate:.3} MB/s, best of {passes} passes over {bytes} bytes");
}

fn main() {
    let args: Vec<String> = std::env::args().skip(1).collect();
    let [capture, bytes, passes, way @ ..] = &args[..] else {
        eprintln!("usage: salvage_bench CAPTURE BYTES PASSES [WAY]");
        std::process::exit(2);
    };
    let named = CAPTURES.iter().find(|(name, _)| name == capture);
    let (_, make) = named.expect("CAPTURE is one of those in CAPTURES");
    let capture = make(bytes.parse().expect("BYTES is a number"));
    let passes = passes.parse().expect("PASSES is a number");
    let wanted = |this: &str| way.first().is_none_or(|only| only == this);
    let mut rows = vec![0i32; ROW_NUMBERS * MOST_ROWS];
    let mut list = vec![0usize; ENTRY_NUMBERS * (2 * capture.len() / LEAST_BYTES + 1)];
    let mut out = vec![0u8; capture.len()];
    let [mut by_port, mut plainly, mut looking] = [(); 3].map(|()| Found::default());
    if wanted("port") {
        let mut entries = 0;
        let mut written = 0;
        best("port", passes, capture.len(), || {
            let (answer, listed, frames) =
                raw::salvage(black_box(&capture), &mut rows, &mut list, &mut out);
            assert_eq!(answer[0], 0);
            (entries, written) = (listed.len(), frames.len());
        });
        let entry = |e: &[usize]| [e[0], e[1], e[2]];
        by_port.list = list[..entries].chunks(ENTRY_NUMBERS).map(entry).collect();
        by_port.frames = out[..written].to_vec();
        let gaps: Vec<_> = by_port.list.iter().filter(|e| e[0] == 1).collect();
        let lost: usize = gaps.iter().map(|e| e[2]).sum();
        let frames = by_port.list.len() - gaps.len();
        println!(
            "{frames} frames, {} gaps of {lost} bytes in all",
            gaps.len()
        );
    }
    if wanted("rust") {
        best("rust", passes, capture.len(), || {
            by_rust(black_box(&capture), false, &mut plainly);
        });
    }
    if wanted("sync") {
        best("sync", passes, capture.len(), || {
            by_rust(black_box(&capture), true, &mut looking);
        });
    }
    if way.is_empty() {
        assert!(plainly == looking, "both walks in Rust find the same");
        let same = by_port == plainly;
        println!("the port finds the same as the original: {same}");
    }
}
