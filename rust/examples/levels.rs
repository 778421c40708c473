//! levels FILE: walks the frames of an .ac3 file and prints dialogue levels and gain words with their bit positions, counted from the start
//! of their frame. The exit status is 0 if every byte of the file belonged to a frame, 1 if not, 2 if it was called wrongly, could not read
//! or could not print.

use ferrysprig::{Field, Parser, Role};
use std::io::{self, Write};
use std::path::Path;
use std::process::ExitCode;

const REFUSED: u8 = 1;
const TROUBLE: u8 = 2;

fn main() -> ExitCode {
    // Not `args`, which panics where an argument is not Unicode.
    let arguments: Vec<_> = std::env::args_os().skip(1).collect();
    let [path] = &arguments[..] else {
        eprintln!("usage: levels FILE");
        return ExitCode::from(TROUBLE);
    };
    match levels(Path::new(path)) {
        Ok(()) => ExitCode::SUCCESS,
        Err((status, message)) => {
            eprintln!("levels: {}: {message}", Path::new(path).display());
            ExitCode::from(status)
        }
    }
}

fn levels(path: &Path) -> Result<(), (u8, String)> {
    let stream = std::fs::read(path).map_err(|e| (TROUBLE, e.to_string()))?;
    if stream.is_empty() {
        return Err((REFUSED, "the file is empty".into()));
    }
    let mut parser = Parser::new();
    let mut place = 0;
    while place < stream.len() {
        let frame = parser.parse_at(&stream, place).map_err(|refusal| {
            let length = stream.len();
            let message = format!("no frame at byte {place} of {length}: {refusal}");
            (REFUSED, message)
        })?;
        let mut text = format!(
            "frame at byte {place}: {} bytes, acmod {}\n",
            frame.summary.bytes, frame.summary.acmod
        );
        for field in frame.fields {
            if let Some(level) = level(&field) {
                text += &format!("  bit {}, width {}: {level}\n", field.pos, field.width);
            }
        }
        // Not `print`, which panics where nobody reads on.
        io::stdout()
            .write_all(text.as_bytes())
            .map_err(|e| (TROUBLE, format!("cannot print: {e}")))?;
        place += frame.summary.bytes;
    }
    Ok(())
}

/// What a field says of levels, if it does.
fn level(field: &Field) -> Option<String> {
    let Field {
        name, value, block, ..
    } = field;
    match field.role {
        Role::Dialnorm(_) => Some(format!("{name} {value}")),
        Role::Compr(_) => Some(format!("{name} {value:#04x}")),
        Role::Dynrng(_) => Some(format!("block {block}, {name} {value:#04x}")),
        _ => None,
    }
}
