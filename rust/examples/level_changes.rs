//! level_changes CAPTURE [INDEX]: prints where the dialogue level of a capture changes: the byte, the time by frames and their sample rate,
//! the old and the new dialnorm. With INDEX the index of the capture is kept in that file: it is read if it is there, extended by what was
//! appended to the capture since, and written again. The exit status is 0 if the level never changes, 1 if it does, 2 if the program was
//! called wrongly, could not read, could not write or could not print, or if the index is of another capture.

use ferrysprig::index::{Entry, Index};
use std::io::{self, ErrorKind, Write};
use std::path::Path;
use std::process::ExitCode;

const CHANGES: u8 = 1;
const TROUBLE: u8 = 2;

/// Parts of a second, so that a frame's 1,536 samples are a whole number of them at every sample rate.
const SECOND: u64 = 14_112_000;

fn main() -> ExitCode {
    // Not `args`, which panics where an argument is not Unicode.
    let arguments: Vec<_> = std::env::args_os().skip(1).collect();
    let (path, kept) = match &arguments[..] {
        [path] => (path, None),
        [path, kept] => (path, Some(Path::new(kept))),
        _ => {
            eprintln!("usage: level_changes CAPTURE [INDEX]");
            return ExitCode::from(TROUBLE);
        }
    };
    match level_changes(Path::new(path), kept) {
        Ok(false) => ExitCode::SUCCESS,
        Ok(true) => ExitCode::from(CHANGES),
        Err((what, why)) => {
            eprintln!("level_changes: {what}: {why}");
            ExitCode::from(TROUBLE)
        }
    }
}

/// Whether the level changes; or what went wrong, and why.
fn level_changes(path: &Path, kept: Option<&Path>) -> Result<bool, (String, String)> {
    let capture = std::fs::read(path).map_err(of(path))?;
    let mut index = kept.map_or_else(|| Ok(Index::new()), read)?;
    let came = index.extend(&capture).map_err(of(path))?;
    if let Some(kept) = kept {
        eprintln!("{came} frames came to the index, {} in all", index.len());
        let bytes: Vec<u8> = index
            .numbers()
            .iter()
            .flat_map(|n| n.to_le_bytes())
            .collect();
        std::fs::write(kept, bytes).map_err(of(kept))?;
    }
    let text = changes(&capture, &index);
    // Not `print`, which panics where nobody reads on.
    let printed = io::stdout().write_all(text.as_bytes());
    let printed = printed.and_then(|()| io::stdout().flush());
    printed.map_err(of(Path::new("standard output")))?;
    Ok(!text.is_empty())
}

/// The index that is kept in a file, eight bytes to a number, or an empty one where there is no file.
fn read(kept: &Path) -> Result<Index, (String, String)> {
    let bytes = match std::fs::read(kept) {
        Err(why) if why.kind() == ErrorKind::NotFound => return Ok(Index::new()),
        read => read.map_err(of(kept))?,
    };
    let numbers = bytes.chunks(8).map(|number| {
        let number = number.try_into().ok()?;
        usize::try_from(u64::from_le_bytes(number)).ok()
    });
    let numbers: Option<Vec<usize>> = numbers.collect();
    let index = numbers.and_then(Index::from_numbers);
    index.ok_or_else(|| of(kept)("this is no index"))
}

fn of<T: ToString>(what: &Path) -> impl Fn(T) -> (String, String) + '_ {
    move |why| (what.display().to_string(), why.to_string())
}

/// A line for each change.
fn changes(capture: &[u8], index: &Index) -> String {
    let mut text = String::new();
    let mut time = 0;
    let mut before: Option<Entry> = None;
    for frame in index.entries() {
        if let Some(before) = before {
            let levels = [
                ("dialnorm", Some(before.dialnorm), Some(frame.dialnorm)),
                ("dialnorm2", before.dialnorm2, frame.dialnorm2),
            ];
            for (name, old, new) in levels.into_iter().filter(|(_, old, new)| old != new) {
                let [old, new] =
                    [old, new].map(|level| level.map_or("none".into(), |n| n.to_string()));
                text += &format!(
                    "byte {}, {}: {name} {old} to {new}\n",
                    frame.place,
                    clock(time)
                );
            }
        }
        time += samples(capture[frame.place + 4] >> 6);
        before = Some(frame);
    }
    text
}

/// How long a frame is, by its fscod: 48, 44.1 or 32 kHz.
fn samples(fscod: u8) -> u64 {
    let rate = [48_000, 44_100, 32_000][usize::from(fscod)];
    1536 * (SECOND / rate)
}

/// Hours, minutes, seconds and thousandths.
fn clock(time: u64) -> String {
    let (seconds, thousandths) = (time / SECOND, time % SECOND * 1000 / SECOND);
    let (hours, minutes) = (seconds / 3600, seconds / 60 % 60);
    format!("{hours}:{minutes:02}:{:02}.{thousandths:03}", seconds % 60)
}
