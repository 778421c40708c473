//! bursts write FILE: the frames of an .ac3 file as IEC 61937 bursts, on standard output. bursts read FILE: the frames of such bursts. The
//! exit status is 0 if every byte of the file belonged to a frame or a burst, 1 if not, 2 if it was called wrongly, could not read or could
//! not print.

use ferrysprig::burst::{self, Refusal};
use std::io::{self, Write};
use std::path::Path;
use std::process::ExitCode;

const REFUSED: u8 = 1;
const TROUBLE: u8 = 2;

fn main() -> ExitCode {
    // Not `args`, which panics where an argument is not Unicode.
    let arguments: Vec<_> = std::env::args_os().skip(1).collect();
    let (how, path): (Step, &Path) = match &arguments[..] {
        [how, path] if how == "write" => (write, Path::new(path)),
        [how, path] if how == "read" => (read, Path::new(path)),
        _ => {
            eprintln!("usage: bursts write|read FILE");
            return ExitCode::from(TROUBLE);
        }
    };
    match bursts(how, path) {
        Ok(()) => ExitCode::SUCCESS,
        Err((status, message)) => {
            eprintln!("bursts: {}: {message}", path.display());
            ExitCode::from(status)
        }
    }
}

/// What comes of the frame or burst at a place, and the bytes that it has there.
type Step = fn(&[u8], usize) -> Result<(Vec<u8>, usize), Refusal>;

fn write(stream: &[u8], place: usize) -> Result<(Vec<u8>, usize), Refusal> {
    let burst = burst::write(stream, place)?;
    // The fourth word is the frame's length in bits.
    let bits = u16::from_be_bytes([burst[6], burst[7]]);
    Ok((burst, usize::from(bits) / 8))
}

fn read(stream: &[u8], place: usize) -> Result<(Vec<u8>, usize), Refusal> {
    let end = stream.len().min(place + burst::BYTES);
    Ok((burst::read(&stream[place..end])?, burst::BYTES))
}

fn bursts(step: Step, path: &Path) -> Result<(), (u8, String)> {
    let stream = std::fs::read(path).map_err(|e| (TROUBLE, e.to_string()))?;
    if stream.is_empty() {
        return Err((REFUSED, "the file is empty".into()));
    }
    let mut place = 0;
    while place < stream.len() {
        let (made, bytes) = step(&stream, place).map_err(|refusal| {
            let length = stream.len();
            (REFUSED, format!("at byte {place} of {length}: {refusal}"))
        })?;
        io::stdout()
            .write_all(&made)
            .and_then(|()| io::stdout().flush())
            .map_err(|e| (TROUBLE, format!("cannot print: {e}")))?;
        place += bytes;
    }
    Ok(())
}
