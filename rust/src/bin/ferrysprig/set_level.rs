//! `set-level`: the dialogue level of every frame of a file, with its checksums mended.

use crate::arguments::{flag, valued, Arguments, Command, IN_PLACE};
use crate::end::{End, Verdict};
use crate::frames::refused;
use crate::input::Capture;
use crate::output::{Holds, Output, Text};
use ferrysprig::level::{correct_level, Changes, Refusal};
use ferrysprig::{parse, Parser, MOST_BYTES};

pub const SET_LEVEL: Command = Command {
    name: "set-level",
    does: "Writes another dialogue level into every frame, and mends the checksums.",
    operands: &["LEVEL", "IN", "OUT"],
    options: &[
        valued("--programme", "NUMBER", "of the second programme: 2"),
        flag("--frames", "print what changed in each frame"),
        IN_PLACE,
    ],
    more: "LEVEL is 1 to 31. Nothing but the level and the checksums changes.\n\
           If a frame is refused, OUT is not made, and what stood there stays.",
    run,
};

fn run(given: &Arguments) -> Result<Verdict, End> {
    let level = given.operand_number(0)?;
    let programme = given.number("--programme")?.unwrap_or(1);
    let mut capture = Capture::open(given.operand(1))?;
    let mut out = Output::of(given, capture.input(), Holds::Bytes)?;
    let mut text = match out.is_standard {
        true => None,
        false => Some(Text::new()?),
    };
    let listed = given.has("--frames");
    if listed && text.as_ref().is_some_and(Text::on_terminal) {
        capture.progress.never();
    }
    let name = capture.name().to_string();
    let mut parser = Parser::new();
    let (mut frames, mut changed) = (0, 0);
    while capture.more(MOST_BYTES, || Ok(()))? {
        let (place, bytes) = (capture.place(), capture.rest());
        let header = parser.header(bytes);
        let header = header.map_err(|refusal| refused(&name, place, bytes, refusal))?;
        let length = header.summary.bytes;
        let mut frame = bytes[..length].to_vec();
        let changes = correct_level(&mut frame, 0, programme, level);
        let changes = changes.map_err(|refusal| whole(&name, place, bytes, refusal))?;
        out.put(&frame)?;
        frames += 1;
        changed += usize::from(!changes.is_empty());
        if let Some(text) = text.as_mut().filter(|_| listed) {
            text.put(format_args!("frame at byte {place}: {}\n", told(&changes)))?;
        }
        capture.pass(length);
    }
    capture.progress.clear();
    out.keep()?;
    if let Some(text) = &mut text {
        text.put(format_args!("{changed} of {frames} frames changed\n"))?;
        text.flush()?;
    }
    Ok(Verdict::Accepted)
}

/// A refusal; the frame's own is told with its bit.
fn whole(name: &str, place: usize, bytes: &[u8], refusal: Refusal) -> End {
    match (refusal, parse(bytes)) {
        (Refusal::Frame(_), Err(own)) => refused(name, place, bytes, own),
        _ => refused(name, place, bytes, refusal),
    }
}

fn told(changes: &Changes) -> String {
    let changes: Vec<String> = changes.iter().map(|change| change.to_string()).collect();
    match changes.is_empty() {
        true => "no change".into(),
        false => changes.join(", "),
    }
}
