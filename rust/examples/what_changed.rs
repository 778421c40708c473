//! what_changed OLD NEW: holds an edited .ac3 file against the one that it was made of, frame by frame, and prints which fields have other
//! values and which spans, as the mantissas and what comes after the audio, have other bits. The exit status is 0 if all is the same, 1 if
//! something changed, 2 if it was called wrongly, could not read or could not print, if the files are not of one length or have bytes that
//! are no frame.

use ferrysprig::{parse_at, range_eq, Field, Frame, Role};
use std::io::{self, Write};
use std::path::Path;
use std::process::ExitCode;

const CHANGED: u8 = 1;
const TROUBLE: u8 = 2;

fn main() -> ExitCode {
    // Not `args`, which panics where an argument is not Unicode.
    let arguments: Vec<_> = std::env::args_os().skip(1).collect();
    let [old, new] = &arguments[..] else {
        eprintln!("usage: what_changed OLD NEW");
        return ExitCode::from(TROUBLE);
    };
    match what_changed(Path::new(old), Path::new(new)) {
        Ok(false) => ExitCode::SUCCESS,
        Ok(true) => ExitCode::from(CHANGED),
        Err((what, why)) => {
            eprintln!("what_changed: {what}: {why}");
            ExitCode::from(TROUBLE)
        }
    }
}

/// Whether anything changed; or what went wrong, and why.
fn what_changed(old_path: &Path, new_path: &Path) -> Result<bool, (String, String)> {
    let old = std::fs::read(old_path).map_err(of(old_path))?;
    let new = std::fs::read(new_path).map_err(of(new_path))?;
    if old.len() != new.len() {
        return Err(of(new_path)("it is not as long as the old file"));
    }
    let (mut place, mut any) = (0, false);
    while place < old.len() {
        let old_frame = frame(&old, place).map_err(of(old_path))?;
        let new_frame = frame(&new, place).map_err(of(new_path))?;
        let one_layout = layout(&old_frame) == layout(&new_frame);
        let told = if one_layout {
            changes([&old, &new], place, [&old_frame, &new_frame])
        } else {
            vec!["its fields are others, and what follows is not compared".into()]
        };
        if !told.is_empty() {
            any = true;
            let text = format!("frame at byte {place}: {}\n", told.join(", "));
            // Not `print`, which panics where nobody reads on.
            let printed = io::stdout().write_all(text.as_bytes());
            let printed = printed.and_then(|()| io::stdout().flush());
            printed.map_err(of(Path::new("standard output")))?;
        }
        if !one_layout {
            break;
        }
        place += old_frame.summary.bytes;
    }
    Ok(any)
}

fn frame(stream: &[u8], place: usize) -> Result<Frame, String> {
    parse_at(stream, place).map_err(|refusal| {
        let (length, number, meaning) = (stream.len(), refusal.number, refusal.meaning());
        format!("no frame at byte {place} of {length}: refusal {number}: {meaning}")
    })
}

fn of<T: ToString>(what: &Path) -> impl Fn(T) -> (String, String) + '_ {
    move |why| (what.display().to_string(), why.to_string())
}

/// A frame's length, and its fields but for their values.
fn layout(frame: &Frame) -> (usize, Vec<Field>) {
    let mut fields = frame.fields.clone();
    for field in &mut fields {
        field.value = 0;
    }
    (frame.summary.bytes, fields)
}

/// What changed in a frame whose fields are the same ones.
fn changes(streams: [&[u8]; 2], place: usize, frames: [&Frame; 2]) -> Vec<String> {
    let [old, new] = streams;
    let same = |start: usize, end: usize| {
        let first = 8 * place + start;
        range_eq(old, first, new, first, end - start)
    };
    let both = frames[0].fields.iter().zip(&frames[1].fields);
    let others = both.filter(|(field, _)| !same(field.pos, field.end()));
    let mut told: Vec<String> = others.map(|(old, new)| change(old, new)).collect();
    if !same(frames[0].summary.audio_end, frames[0].total_bits()) {
        told.push("after the audio: other bits".into());
    }
    told
}

/// A field that changed.
fn change(old: &Field, new: &Field) -> String {
    let name = match old.block {
        -1 => old.name.to_string(),
        block => format!("block {block} {}", old.name),
    };
    match old.role {
        role if role.is_span() => format!("{name}: other bits"),
        Role::Crc1 => format!("{name} 0x{:04x} -> 0x{:04x}", old.value, new.value),
        _ => format!("{name} {} -> {}", old.value, new.value),
    }
}
