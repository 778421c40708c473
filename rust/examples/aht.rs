//! aht FILE AT HEBAPS..: for whoever reads E-AC-3 and has come to AHT sections: walks over those that stand one after the other from bit AT
//! of a file on, and prints where each ends and how many tags it has. A section is given by the hebaps of its bins, from bin 0 on, as
//! 8,0,12. The exit status is 0 if all were walked over, 1 if one was refused, 2 if it was called wrongly, could not read or could not
//! print.

use ferrysprig::aht::walk;
use std::ffi::OsString;
use std::io::{self, Write};
use std::path::Path;
use std::process::ExitCode;

const REFUSED: u8 = 1;
const TROUBLE: u8 = 2;

fn main() -> ExitCode {
    // Not `args`, which panics where an argument is not Unicode.
    let arguments: Vec<OsString> = std::env::args_os().skip(1).collect();
    let Some((path, at, sections)) = called(&arguments) else {
        eprintln!("usage: aht FILE AT HEBAPS.. (as 8,0,12)");
        return ExitCode::from(TROUBLE);
    };
    match aht(path, at, &sections) {
        Ok(()) => ExitCode::SUCCESS,
        Err((status, message)) => {
            eprintln!("aht: {}: {message}", path.display());
            ExitCode::from(status)
        }
    }
}

/// The file, the first bit, and the hebaps of each section.
fn called(arguments: &[OsString]) -> Option<(&Path, usize, Vec<Vec<u8>>)> {
    let [path, at, sections @ ..] = arguments else {
        return None;
    };
    let hebaps = |text: &OsString| text.to_str()?.split(',').map(|n| n.parse().ok()).collect();
    let sections: Vec<Vec<u8>> = sections.iter().map(hebaps).collect::<Option<_>>()?;
    let at = at.to_str()?.parse().ok()?;
    (!sections.is_empty()).then_some((Path::new(path), at, sections))
}

fn aht(path: &Path, mut at: usize, sections: &[Vec<u8>]) -> Result<(), (u8, String)> {
    let data = std::fs::read(path).map_err(|e| (TROUBLE, e.to_string()))?;
    for hebap in sections {
        let section = walk(&data, at, 8 * data.len(), hebap, 0..hebap.len())
            .map_err(|refusal| (REFUSED, format!("section at bit {at}: {refusal}")))?;
        let (end, tags) = (section.end, section.tags);
        let text = format!("section at bit {at}: ends at bit {end}, tags {tags}\n");
        // Not `print`, which panics where nobody reads on.
        io::stdout()
            .write_all(text.as_bytes())
            .and_then(|()| io::stdout().flush())
            .map_err(|e| (TROUBLE, format!("cannot print: {e}")))?;
        at = end; // the next one begins there
    }
    Ok(())
}
