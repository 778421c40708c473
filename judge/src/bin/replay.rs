//! replay SEED BYTES: writes the small binary list, of about that many bytes, to standard output.

use std::io::{self, Write};

fn main() -> io::Result<()> {
    let args: Vec<usize> = std::env::args()
        .skip(1)
        .map(|a| a.parse().expect("SEED and BYTES are numbers"))
        .collect();
    let [seed, bytes] = args[..] else {
        eprintln!("usage: replay SEED BYTES");
        std::process::exit(2);
    };
    io::stdout().write_all(&judge::replay::make(seed as u64, bytes))
}
