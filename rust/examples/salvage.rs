//! salvage IN OUT: goes through a damaged .ac3 file, writes what is left of its frames to a new file, one after the other, and prints where
//! frames and gaps are. The exit status is 0 if there was no gap, 1 if there was, 2 if it was called wrongly, could not read, could not
//! write or could not print.

use ferrysprig::salvage::{salvage_file, Trouble};
use std::io::{self, Write};
use std::path::Path;
use std::process::ExitCode;

const DAMAGED: u8 = 1;
const TROUBLE: u8 = 2;

fn main() -> ExitCode {
    // Not `args`, which panics where an argument is not Unicode.
    let arguments: Vec<_> = std::env::args_os().skip(1).collect();
    let [input, output] = &arguments[..] else {
        eprintln!("usage: salvage IN OUT");
        return ExitCode::from(TROUBLE);
    };
    let (input, output) = (Path::new(input), Path::new(output));
    let entries = match salvage_file(input, output) {
        Ok(entries) => entries,
        Err(Trouble::Read(why)) => return trouble(input, why),
        Err(Trouble::Write(why)) => return trouble(output, why),
        Err(other) => return trouble(input, other),
    };
    let mut text = String::new();
    for entry in &entries {
        let kind = if entry.is_gap() { "gap" } else { "frame" };
        let (place, length) = (entry.range().start, entry.range().len());
        text += &format!("{kind} at byte {place}, length {length}\n");
    }
    // Not `print`, which panics where nobody reads on.
    let printed = io::stdout().write_all(text.as_bytes());
    if let Err(why) = printed.and_then(|()| io::stdout().flush()) {
        return trouble(Path::new("standard output"), why);
    }
    match entries.into_iter().any(|entry| entry.is_gap()) {
        true => ExitCode::from(DAMAGED),
        false => ExitCode::SUCCESS,
    }
}

fn trouble(what: &Path, why: impl std::fmt::Display) -> ExitCode {
    eprintln!("salvage: {}: {why}", what.display());
    ExitCode::from(TROUBLE)
}
