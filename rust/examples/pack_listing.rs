//! pack_listing pack FILE: the packed form of a listing's text, on standard output. pack_listing unpack FILE: the text of a packed listing.
//! The exit status is 0 if it was written, 1 if the file is no listing, 2 if the program was called wrongly, could not read or could not
//! print.

use ferrysprig::listing::{pack, unpack, Refusal};
use std::io::{self, Write};
use std::path::Path;
use std::process::ExitCode;

const REFUSED: u8 = 1;
const TROUBLE: u8 = 2;

type Way = fn(&[u8]) -> Result<Vec<u8>, Refusal>;

fn main() -> ExitCode {
    // Not `args`, which panics where an argument is not Unicode.
    let arguments: Vec<_> = std::env::args_os().skip(1).collect();
    let (way, path): (Way, &Path) = match &arguments[..] {
        [way, path] if way == "pack" => (pack, Path::new(path)),
        [way, path] if way == "unpack" => (unpack, Path::new(path)),
        _ => {
            eprintln!("usage: pack_listing pack|unpack FILE");
            return ExitCode::from(TROUBLE);
        }
    };
    match convert(way, path) {
        Ok(()) => ExitCode::SUCCESS,
        Err((status, message)) => {
            eprintln!("pack_listing: {}: {message}", path.display());
            ExitCode::from(status)
        }
    }
}

fn convert(way: Way, path: &Path) -> Result<(), (u8, String)> {
    let input = std::fs::read(path).map_err(|e| (TROUBLE, e.to_string()))?;
    let made = way(&input).map_err(|refusal| (REFUSED, refusal.to_string()))?;
    // Not `print`, which panics where nobody reads on.
    io::stdout()
        .write_all(&made)
        .and_then(|()| io::stdout().flush())
        .map_err(|e| (TROUBLE, format!("cannot print: {e}")))
}
