//! monitor FILE: watches the dialogue level of an .ac3 file. Each frame's header is read alone, which costs a small part of a parse; only
//! where the level is not that of the frame before are the blocks read, too, and the frame's gain words printed with its level. The exit
//! status is 0 if every byte of the file belonged to a frame, 1 if not, 2 if it was called wrongly, could not read or could not print.

use ferrysprig::{Field, FrameRef, HeaderRef, Parser, Refusal, Role};
use std::io::{self, Write};
use std::path::Path;
use std::process::ExitCode;

const REFUSED: u8 = 1;
const TROUBLE: u8 = 2;

fn main() -> ExitCode {
    // Not `args`, which panics where an argument is not Unicode.
    let arguments: Vec<_> = std::env::args_os().skip(1).collect();
    let [path] = &arguments[..] else {
        eprintln!("usage: monitor FILE");
        return ExitCode::from(TROUBLE);
    };
    match monitor(Path::new(path)) {
        Ok(()) => ExitCode::SUCCESS,
        Err((status, message)) => {
            eprintln!("monitor: {}: {message}", Path::new(path).display());
            ExitCode::from(status)
        }
    }
}

fn monitor(path: &Path) -> Result<(), (u8, String)> {
    let stream = std::fs::read(path).map_err(|e| (TROUBLE, e.to_string()))?;
    if stream.is_empty() {
        return Err((REFUSED, "the file is empty".into()));
    }
    let mut parser = Parser::new();
    let (mut place, mut frames, mut parsed) = (0, 0, 0);
    let mut before = [None; 2];
    while place < stream.len() {
        let refused = |refusal: Refusal| {
            let length = stream.len();
            let message = format!("no frame at byte {place} of {length}: {refusal}");
            (REFUSED, message)
        };
        let header = parser.header_at(&stream, place).map_err(refused)?;
        let (levels, summary) = (levels(&header), header.summary);
        if levels != before {
            // Were the capture written to in the meantime, so that the header is another one, this would give refusal 24.
            let frame = parser
                .blocks_at(&stream, place, &summary)
                .map_err(refused)?;
            print(&format!("frame at byte {place}: {}", told(levels, &frame)))?;
            parsed += 1;
            before = levels;
        }
        place += summary.bytes;
        frames += 1;
    }
    print(&format!("frames: {frames}; blocks read of {parsed}\n"))
}

/// The levels of both programmes.
fn levels(header: &HeaderRef<'_>) -> [Option<u32>; 2] {
    [0, 1].map(|programme| header.value(Role::Dialnorm(programme)))
}

/// The levels of a frame, and a line for each gain word.
fn told([first, second]: [Option<u32>; 2], frame: &FrameRef<'_>) -> String {
    let named = [("dialnorm", first), ("dialnorm2", second)];
    let levels = named.map(|(name, level)| level.map(|level| format!("{name} {level}")));
    let levels: Vec<String> = levels.into_iter().flatten().collect();
    let gains: String = frame.fields.clone().filter_map(gain).collect();
    format!("{}\n{gains}", levels.join(", "))
}

/// A gain word.
fn gain(field: Field) -> Option<String> {
    let block = match field.role {
        Role::Compr(_) => String::new(),
        Role::Dynrng(_) => format!("block {}, ", field.block),
        _ => return None,
    };
    let (pos, width, name, value) = (field.pos, field.width, field.name, field.value);
    let text = format!("  bit {pos}, width {width}: {block}{name} {value:#04x}\n");
    Some(text)
}

/// Not `print!`, which panics where nobody reads on.
fn print(text: &str) -> Result<(), (u8, String)> {
    io::stdout()
        .write_all(text.as_bytes())
        .and_then(|()| io::stdout().flush())
        .map_err(|e| (TROUBLE, format!("cannot print: {e}")))
}
