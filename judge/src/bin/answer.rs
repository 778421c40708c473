//! The listing program of docs/FORMAT.md over the judge: one frame on standard input, with its bytes
//! and rows. `answer --all` goes through every frame of the input instead, with the rows of any
//! frame: after each listing it goes on behind the frame, up to the first refusal or the end.
//! `--rows N` lends another number of rows; `--summary` adds a line with the summary's numbers.

use judge::corners::MOST_ROWS;
use judge::cut::answer;
use judge::layout::{summary, ROW};
use judge::listing::{listing, BYTES, ROWS};
use std::io::{self, Read, Write};

fn main() -> io::Result<()> {
    let arguments: Vec<String> = std::env::args().skip(1).collect();
    let given = |flag: &str| arguments.iter().position(|a| a == flag);
    let all = given("--all").is_some();
    let rows = match given("--rows") {
        Some(at) => arguments[at + 1].parse().expect("a number of rows"),
        None if all => MOST_ROWS,
        None => ROWS,
    };
    let mut input = Vec::new();
    let most = if all { u64::MAX } else { BYTES as u64 };
    io::stdin().take(most).read_to_end(&mut input)?;
    let mut room = vec![0; rows * ROW];
    let mut out = io::BufWriter::new(io::stdout().lock());
    let mut place = 0;
    loop {
        let got = answer(&input, place, &mut room);
        out.write_all(listing(&got, &room).as_bytes())?;
        if given("--summary").is_some() {
            let numbers = got.numbers();
            let told: Vec<String> = summary().map(|at| numbers[at].to_string()).collect();
            writeln!(out, "summary {}", told.join(" "))?;
        }
        match &got.verdict {
            Ok(s) if all && place + s.bytes < input.len() => place += s.bytes,
            _ => return out.flush(),
        }
    }
}
