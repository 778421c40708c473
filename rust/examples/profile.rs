//! profile FILE: holds the frames of an .ac3 file against the contribution profile, and prints for each that it is within, or which rule it
//! breaks first, by which field. The exit status is 0 if every byte of the file belonged to a frame within the profile, 1 if not, 2 if it was
//! called wrongly, could not read or could not print.

use ferrysprig::profile::{check_into, Profile};
use ferrysprig::{Parser, MOST_ROWS, ROW_NUMBERS};
use std::io::{self, Write};
use std::path::Path;
use std::process::ExitCode;

const NOT_WITHIN: u8 = 1;
const TROUBLE: u8 = 2;

fn main() -> ExitCode {
    // Not `args`, which panics where an argument is not Unicode.
    let arguments: Vec<_> = std::env::args_os().skip(1).collect();
    let [path] = &arguments[..] else {
        eprintln!("usage: profile FILE");
        return ExitCode::from(TROUBLE);
    };
    match profile(Path::new(path)) {
        Ok(true) => ExitCode::SUCCESS,
        Ok(false) => ExitCode::from(NOT_WITHIN),
        Err((status, message)) => {
            eprintln!("profile: {}: {message}", Path::new(path).display());
            ExitCode::from(status)
        }
    }
}

/// Whether all frames are within.
fn profile(path: &Path) -> Result<bool, (u8, String)> {
    let stream = std::fs::read(path).map_err(|e| (TROUBLE, e.to_string()))?;
    if stream.is_empty() {
        return Err((NOT_WITHIN, "the file is empty".into()));
    }
    let mut parser = Parser::new();
    let mut room = vec![0; MOST_ROWS * ROW_NUMBERS];
    let (mut place, mut all_within) = (0, true);
    while place < stream.len() {
        let refused = |refusal: String| {
            let length = stream.len();
            let message = format!("no frame at byte {place} of {length}: {refusal}");
            (NOT_WITHIN, message)
        };
        let (profile, mut fields) = check_into(&stream, place, &mut room)
            .map_err(|refusal| refused(refusal.to_string()))?;
        let text = match profile {
            Profile::Within => format!("frame at byte {place}: {profile}\n"),
            Profile::Broken { row, .. } => {
                all_within = false;
                let field = fields.nth(row).expect("the row that was told");
                let (name, value, bit) = (field.name, field.value, field.pos);
                format!("frame at byte {place}: {profile} ({name} {value} at bit {bit})\n")
            }
        };
        // Not `print`, which panics where nobody reads on.
        io::stdout()
            .write_all(text.as_bytes())
            .map_err(|e| (TROUBLE, format!("cannot print: {e}")))?;
        // The header alone tells how long the frame is.
        let header = parser
            .header_at(&stream, place)
            .map_err(|refusal| refused(refusal.to_string()))?;
        place += header.summary.bytes;
    }
    Ok(all_within)
}
