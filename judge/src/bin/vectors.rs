//! vectors SEED SIZE: writes the text list of cases, the same for the same arguments, to standard
//! output. Its head says its form.

use judge::cases::{Amounts, Case, Generator};
use judge::hex;
use judge::list::{listed, HEAD};
use std::io::{self, BufWriter, Write};

fn main() -> io::Result<()> {
    let args: Vec<usize> = std::env::args()
        .skip(1)
        .map(|a| a.parse().expect("SEED and SIZE are numbers"))
        .collect();
    let [seed, size] = args[..] else {
        eprintln!("usage: vectors SEED SIZE");
        std::process::exit(2);
    };
    let mut out = BufWriter::new(io::stdout().lock());
    write!(out, "# vectors {seed} {size}\n{HEAD}")?;
    let mut capture = Vec::new();
    let mut write_case = |case: &Case<'_>| {
        if case.capture != capture {
            capture = case.capture.to_vec();
            writeln!(out, "frame {}", hex::of(&capture)).expect("written");
        }
        writeln!(out, "{}", listed(case).line()).expect("written");
    };
    let mut generator = Generator::new(seed as u64, &mut write_case);
    generator.run(Amounts::for_list(size));
    out.flush()
}
