//! headers FILE: walks the frames of an .ac3 file by their headers alone, and prints what each says: the frame's length, and bsi, element
//! by element. No block is looked at. The exit status is 0 if every byte of the file belonged to a frame, 1 if not, 2 if it was called
//! wrongly, could not read or could not print.

use ferrysprig::{Field, Parser};
use std::io::{self, Write};
use std::path::Path;
use std::process::ExitCode;

const REFUSED: u8 = 1;
const TROUBLE: u8 = 2;

fn main() -> ExitCode {
    // Not `args`, which panics where an argument is not Unicode.
    let arguments: Vec<_> = std::env::args_os().skip(1).collect();
    let [path] = &arguments[..] else {
        eprintln!("usage: headers FILE");
        return ExitCode::from(TROUBLE);
    };
    match headers(Path::new(path)) {
        Ok(()) => ExitCode::SUCCESS,
        Err((status, message)) => {
            eprintln!("headers: {}: {message}", Path::new(path).display());
            ExitCode::from(status)
        }
    }
}

fn headers(path: &Path) -> Result<(), (u8, String)> {
    let stream = std::fs::read(path).map_err(|e| (TROUBLE, e.to_string()))?;
    if stream.is_empty() {
        return Err((REFUSED, "the file is empty".into()));
    }
    let mut parser = Parser::new();
    let mut place = 0;
    while place < stream.len() {
        let header = parser.header_at(&stream, place).map_err(|refusal| {
            let length = stream.len();
            let message = format!("no frame at byte {place} of {length}: {refusal}");
            (REFUSED, message)
        })?;
        let summary = header.summary;
        let bsi = header.fields.skip_while(|field| field.name != "bsid");
        let values: Vec<String> = bsi.map(said).collect();
        let text = format!(
            "frame at byte {place}: {} bytes, fscod {}, blocks from bit {}\n  {}\n",
            summary.bytes,
            summary.fscod,
            summary.end,
            values.join(", ")
        );
        // Not `print`, which panics where nobody reads on.
        io::stdout()
            .write_all(text.as_bytes())
            .map_err(|e| (TROUBLE, format!("cannot print: {e}")))?;
        place += summary.bytes;
    }
    Ok(())
}

/// A field's name and value, or a span's length.
fn said(field: Field) -> String {
    match field.role.is_span() {
        true => format!("{} of {} bytes", field.name, field.width / 8),
        false => format!("{} {}", field.name, field.value),
    }
}
