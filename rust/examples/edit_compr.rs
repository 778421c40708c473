//! edit_compr FILE VALUE: writes another compr (0 to 255) into the first frame of an .ac3 file, in memory, and lists the frame before and
//! after: nine numbers to a row, as docs/FORMAT.md says, and a last line. One number differs. The exit status is 0 if it was written, 1 if
//! there is no frame, no compr in it, or the value was refused, 2 if it was called wrongly, could not read or could not print.

use ferrysprig::{edit, parse_into, Refusal, MOST_ROWS, ROW_NUMBERS};
use std::ffi::OsString;
use std::io::{self, Write};
use std::path::Path;
use std::process::ExitCode;

const REFUSED: u8 = 1;
const TROUBLE: u8 = 2;

fn main() -> ExitCode {
    // Not `args`, which panics where an argument is not Unicode.
    let arguments: Vec<OsString> = std::env::args_os().skip(1).collect();
    let (path, value) = match &arguments[..] {
        [path, value] => (Path::new(path), value.to_str().map(str::parse)),
        _ => (Path::new(""), None),
    };
    let Some(Ok(value)) = value else {
        eprintln!("usage: edit_compr FILE VALUE");
        return ExitCode::from(TROUBLE);
    };
    match edit_compr(path, value) {
        Ok(()) => ExitCode::SUCCESS,
        Err((status, message)) => {
            eprintln!("edit_compr: {}: {message}", path.display());
            ExitCode::from(status)
        }
    }
}

fn edit_compr(path: &Path, value: u32) -> Result<(), (u8, String)> {
    let refused = |why: String| (REFUSED, why);
    let mut stream = std::fs::read(path).map_err(|e| (TROUBLE, e.to_string()))?;
    let frame = ferrysprig::parse(&stream).map_err(|why| refused(why.to_string()))?;
    let compr = frame.named("compr").filter(|field| field.editable());
    let compr = compr.ok_or_else(|| refused("the frame has no compr".into()))?;
    let before = listing(&stream).map_err(|why| refused(why.to_string()))?;
    edit::set(&mut stream, 0, compr, value).map_err(|why| refused(why.to_string()))?;
    // It is accepted again, and no other row differs: that is proved.
    let after = listing(&stream).map_err(|why| refused(why.to_string()))?;
    // Not `print`, which panics where nobody reads on.
    io::stdout()
        .write_all(format!("before\n{before}after\n{after}").as_bytes())
        .and_then(|()| io::stdout().flush())
        .map_err(|e| (TROUBLE, format!("cannot print: {e}")))
}

/// The rows of a stream's first frame, and the last line.
fn listing(stream: &[u8]) -> Result<String, Refusal> {
    let mut room = vec![0; MOST_ROWS * ROW_NUMBERS];
    let frame = parse_into(stream, 0, &mut room)?;
    let (rows, summary) = (frame.fields.len(), frame.summary);
    let mut text = String::new();
    for row in room.chunks(ROW_NUMBERS).take(rows) {
        let numbers: Vec<String> = row.iter().map(i32::to_string).collect();
        text += &numbers.join(" ");
        text += "\n";
    }
    text += &format!("audio {rows} {} {}\n", summary.bytes, summary.audio_end);
    Ok(text)
}
