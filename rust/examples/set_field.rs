//! set_field IN OUT NAME VALUE: writes a value into every field of a name in an .ac3 file, mends the checksums, writes the whole to a new
//! file and prints how many fields were set. The name is one of those whose values never steer the rest of a frame (docs/NAMES.md), so
//! nothing else moves. The exit status is 0 if every byte of the file belonged to a frame, and a field was written; 1 if not, and then no
//! file is made; 2 if it was called wrongly, could not read, could not write or could not print.

use ferrysprig::level::correct_level;
use ferrysprig::{edit, parse_at, Field, Role};
use std::ffi::{OsStr, OsString};
use std::fs::OpenOptions;
use std::io::{self, Write};
use std::path::Path;
use std::process::ExitCode;

const REFUSED: u8 = 1;
const TROUBLE: u8 = 2;

type Trouble = (u8, OsString, String);

fn main() -> ExitCode {
    // Not `args`, which panics where an argument is not Unicode.
    let arguments: Vec<OsString> = std::env::args_os().skip(1).collect();
    let called = match &arguments[..] {
        [from, to, name, value] => {
            let value = value.to_str().and_then(|text| text.parse().ok());
            value.map(|value| (from, to, name, value))
        }
        _ => None,
    };
    let Some((from, to, name, value)) = called else {
        eprintln!("usage: set_field IN OUT NAME VALUE");
        return ExitCode::from(TROUBLE);
    };
    match set_field(from, to, name, value) {
        Ok(()) => ExitCode::SUCCESS,
        Err((status, what, message)) => {
            eprintln!("set_field: {}: {message}", Path::new(&what).display());
            ExitCode::from(status)
        }
    }
}

fn set_field(from: &OsStr, to: &OsStr, name: &OsStr, value: u32) -> Result<(), Trouble> {
    let Some(name) = name.to_str().filter(|name| settable(name)) else {
        let message = "this is no name of a field that may be set";
        return Err((TROUBLE, name.to_owned(), message.into()));
    };
    let mut stream = std::fs::read(from).map_err(|why| trouble(from, why))?;
    let (mut place, mut frames, mut all) = (0, 0, 0);
    while place < stream.len() {
        let length = stream.len();
        let (fields, bytes) = set(&mut stream, place, name, value).map_err(|(number, why)| {
            let message = format!("at byte {place} of {length}: refusal {number}: {why}");
            (REFUSED, from.to_owned(), message)
        })?;
        all += fields;
        frames += 1;
        place += bytes;
    }
    if all == 0 {
        let message = "no frame has this field";
        return Err((REFUSED, from.to_owned(), message.into()));
    }
    // No file is written over.
    let mut made = OpenOptions::new()
        .write(true)
        .create_new(true)
        .open(to)
        .map_err(|why| trouble(to, why))?;
    made.write_all(&stream).map_err(|why| trouble(to, why))?;
    // Not `print`, which panics where nobody reads on.
    io::stdout()
        .write_all(format!("frames: {frames}; fields set: {all}\n").as_bytes())
        .and_then(|()| io::stdout().flush())
        .map_err(|why| trouble(OsStr::new("standard output"), why))
}

/// Whether the values of a name may be set. (crc1 follows from the rest, and is mended.)
fn settable(name: &str) -> bool {
    let known = ferrysprig::NAMES.iter().find(|known| **known == name);
    let field = known.map(|known| Field::new(known, Role::Plain, -1, -1, 0, 0, 0));
    field.is_some_and(|field| field.editable()) && name != "crc1"
}

/// Sets the fields of a frame. How many they were, and how long the frame is; or the refusal, by its number and meaning.
fn set(
    stream: &mut [u8],
    place: usize,
    name: &str,
    value: u32,
) -> Result<(usize, usize), (u8, &'static str)> {
    let frame = parse_at(stream, place).map_err(|why| (why.number, why.meaning()))?;
    let mut fields = 0;
    for field in frame.fields.iter().filter(|field| field.name == name) {
        edit::set(stream, place, field, value).map_err(|why| (why.number(), why.meaning()))?;
        fields += 1;
    }
    let level = match name {
        "dialnorm" => Some(value),
        _ => frame.value(Role::Dialnorm(0), -1),
    };
    // To correct the level to what it is mends the checksums, and changes nothing else. (Every frame has a level; 0 is refused.)
    let level = level.unwrap_or(0) as usize;
    correct_level(stream, place, 1, level).map_err(|why| (why.number(), why.meaning()))?;
    Ok((fields, frame.summary.bytes))
}

fn trouble(what: &OsStr, why: io::Error) -> Trouble {
    (TROUBLE, what.to_owned(), why.to_string())
}
