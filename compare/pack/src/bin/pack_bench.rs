//! pack_bench LISTING PASSES [WAY]: packs a listing, or unpacks its packed form, PASSES times, in every way or in one (so that its
//! instructions can be counted), and prints the best pass of each, in bytes of text. Says whether the ways give the same.
//!
//! The ways: `pack` and `unpack`, by the archive; `pack-by-hand` and `unpack-by-hand`, the same in Rust. Listings are those of the frames
//! of judge/frames/LISTING.ac3, one after the other, as one: their rows, and the last frame's last line.

use compare_pack::layout::PackAnswer;
use compare_pack::{by_hand, raw};
use judge::cut::{answer, MANY_ROWS};
use judge::frames;
use judge::layout::ROW;
use judge::listing::{last_line, listing};
use std::hint::black_box;
use std::time::Instant;

/// The text of a file's frames.
fn text(name: &str) -> Vec<u8> {
    let kept = frames::kept();
    let file = kept.iter().find(|(of, _)| of == name);
    let stream = &file.expect("a file of judge/frames").1;
    let (mut text, mut end, mut place) = (String::new(), String::new(), 0);
    while place < stream.len() {
        let mut room = vec![0; ROW * MANY_ROWS];
        let told = answer(stream, place, &mut room);
        let bytes = told.verdict.as_ref().expect("an accepted frame").bytes;
        end = last_line(&told) + "\n";
        text += listing(&told, &room)
            .strip_suffix(&end)
            .expect("a last line");
        place += bytes;
    }
    (text + &end).into_bytes()
}

/// The best of some passes, in MB of text a second; and what the last of them wrote.
fn best(
    way: &str,
    passes: usize,
    text: usize,
    out: &mut [u8],
    mut pass: impl FnMut(&mut [u8]) -> PackAnswer,
) -> Vec<u8> {
    let (mut least, mut written) = (f64::INFINITY, 0);
    for _ in 0..passes {
        let began = Instant::now();
        let told = pass(out);
        least = least.min(began.elapsed().as_secs_f64());
        assert_eq!(told[0], 0);
        written = told[1];
    }
    let rate = text as f64 / least / 1e6;
    println!("{way}: {rate:.1} MB/s, best of {passes} passes over {text} bytes of text");
    out[..written].to_vec()
}

fn main() {
    let args: Vec<String> = std::env::args().skip(1).collect();
    let [name, passes, way @ ..] = &args[..] else {
        eprintln!("usage: pack_bench LISTING PASSES [WAY]");
        std::process::exit(2);
    };
    let passes = passes.parse().expect("PASSES is a number");
    let wanted = |this: &str| way.first().is_none_or(|only| only == this);
    let text = text(name);
    let mut packed = vec![0; text.len()];
    let [refusal, bytes] = by_hand::pack(&text, &mut packed);
    assert_eq!(refusal, 0);
    packed.truncate(bytes);
    let mut out = vec![0u8; text.len()];
    let mut same = true;
    if wanted("pack") {
        same &= best("pack", passes, text.len(), &mut out, |out| {
            raw::pack(black_box(&text), out).0
        }) == packed;
    }
    if wanted("pack-by-hand") {
        same &= best("pack-by-hand", passes, text.len(), &mut out, |out| {
            by_hand::pack(black_box(&text), out)
        }) == packed;
    }
    if wanted("unpack") {
        same &= best("unpack", passes, text.len(), &mut out, |out| {
            raw::unpack(black_box(&packed), out).0
        }) == text;
    }
    if wanted("unpack-by-hand") {
        same &= best("unpack-by-hand", passes, text.len(), &mut out, |out| {
            by_hand::unpack(black_box(&packed), out)
        }) == text;
    }
    println!(
        "{} bytes packed; all ways give the same: {same}",
        packed.len()
    );
    std::process::exit(i32::from(!same));
}
