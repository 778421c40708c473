//! mend_level IN OUT PROGRAMME LEVEL: writes a dialogue level (1 to 31) of a programme, counted from 1, into every frame of an .ac3 file,
//! mends the checksums, writes the whole to a new file and prints what changed in each frame. The exit status is 0 if every byte of the
//! file belonged to a frame that was corrected, 1 if not, and then no file is made; 2 if the program was called wrongly, could not read,
//! could not write or could not print.

use ferrysprig::level::correct_level;
use ferrysprig::Parser;
use std::ffi::{OsStr, OsString};
use std::fs::OpenOptions;
use std::io::{self, Write};
use std::path::Path;
use std::process::ExitCode;

const REFUSED: u8 = 1;
const TROUBLE: u8 = 2;

type Trouble = (u8, OsString, String);

fn main() -> ExitCode {
    // Not `args`, which panics where an argument is not Unicode.
    let arguments: Vec<OsString> = std::env::args_os().skip(1).collect();
    let number = |text: &OsString| text.to_str().and_then(|text| text.parse().ok());
    let called = match &arguments[..] {
        [from, to, programme, level] => number(programme)
            .zip(number(level))
            .map(|numbers| (from, to, numbers)),
        _ => None,
    };
    let Some((from, to, (programme, level))) = called else {
        eprintln!("usage: mend_level IN OUT PROGRAMME LEVEL");
        return ExitCode::from(TROUBLE);
    };
    match mend(from, to, programme, level) {
        Ok(()) => ExitCode::SUCCESS,
        Err((status, what, message)) => {
            eprintln!("mend_level: {}: {message}", Path::new(&what).display());
            ExitCode::from(status)
        }
    }
}

fn mend(from: &OsStr, to: &OsStr, programme: usize, level: usize) -> Result<(), Trouble> {
    let mut stream = std::fs::read(from).map_err(|why| trouble(from, why))?;
    if stream.is_empty() {
        return Err((REFUSED, from.to_owned(), "the file is empty".into()));
    }
    let (mut parser, mut place, mut text) = (Parser::new(), 0, String::new());
    while place < stream.len() {
        let length = stream.len();
        let refused = |why: String| {
            let message = format!("at byte {place} of {length}: {why}");
            (REFUSED, from.to_owned(), message)
        };
        let changes = correct_level(&mut stream, place, programme, level)
            .map_err(|refusal| refused(refusal.to_string()))?;
        let said: Vec<String> = changes.iter().map(|change| change.to_string()).collect();
        let said = match said.is_empty() {
            true => "no change".to_string(),
            false => said.join(", "),
        };
        text += &format!("frame at byte {place}: {said}\n");
        // The header alone tells how long the frame is.
        let header = parser
            .header_at(&stream, place)
            .map_err(|refusal| refused(refusal.to_string()))?;
        place += header.summary.bytes;
    }
    // No file is written over.
    let mut made = OpenOptions::new()
        .write(true)
        .create_new(true)
        .open(to)
        .map_err(|why| trouble(to, why))?;
    made.write_all(&stream).map_err(|why| trouble(to, why))?;
    // Not `print`, which panics where nobody reads on.
    io::stdout()
        .write_all(text.as_bytes())
        .and_then(|()| io::stdout().flush())
        .map_err(|why| trouble(OsStr::new("standard output"), why))
}

fn trouble(what: &OsStr, why: io::Error) -> Trouble {
    (TROUBLE, what.to_owned(), why.to_string())
}
