//! `burst` and `unburst`: frames as IEC 61937 bursts, and back.

use crate::arguments::{Arguments, Command};
use crate::end::{End, Verdict};
use crate::frames::refused;
use crate::input::Capture;
use crate::output::{Holds, Output};
use ferrysprig::burst::{read_into, write_into, Refusal, BYTES};
use ferrysprig::{parse, MOST_BYTES, MOST_ROWS, ROW_NUMBERS};

pub const BURST: Command = Command {
    name: "burst",
    does: "Writes frames as IEC 61937 bursts, each of 6,144 bytes.",
    operands: &["IN", "OUT"],
    options: &[],
    more: "If a frame is refused, OUT is not made, and what stood there stays.",
    run: burst,
};

pub const UNBURST: Command = Command {
    name: "unburst",
    does: "Writes the frames of IEC 61937 bursts, one after the other.",
    operands: &["IN", "OUT"],
    options: &[],
    more: "If a burst is refused, OUT is not made, and what stood there stays.",
    run: unburst,
};

fn burst(given: &Arguments) -> Result<Verdict, End> {
    let mut rows = vec![0; MOST_ROWS * ROW_NUMBERS];
    let mut burst = [0; BYTES];
    convert(given, MOST_BYTES, |name, place, bytes, out| {
        let written = write_into(bytes, 0, &mut rows, &mut burst);
        let written = written.map_err(|refusal| whole(name, place, bytes, bytes, refusal))?;
        out.put(written)?;
        // The fourth word is the frame's length in bits.
        let bits = u16::from_be_bytes([written[6], written[7]]);
        Ok(usize::from(bits) / 8)
    })
}

fn unburst(given: &Arguments) -> Result<Verdict, End> {
    let mut rows = vec![0; MOST_ROWS * ROW_NUMBERS];
    let mut frame = [0; MOST_BYTES];
    convert(given, BYTES, |name, place, bytes, out| {
        let burst = &bytes[..bytes.len().min(BYTES)];
        let inside = burst.get(8..).unwrap_or_default();
        let read = read_into(burst, &mut rows, &mut frame);
        let read = read.map_err(|refusal| whole(name, place, burst, inside, refusal))?;
        out.put(read)?;
        Ok(BYTES)
    })
}

/// A refusal; the frame's own is told with its bit.
fn whole(name: &str, place: usize, bytes: &[u8], frame: &[u8], refusal: Refusal) -> End {
    match (refusal, parse(frame)) {
        (Refusal::Frame(_), Err(own)) => refused(name, place, bytes, own),
        _ => refused(name, place, bytes, refusal),
    }
}

/// Goes through a file in steps, each of which takes some bytes and writes some, and keeps the output if none is refused.
fn convert(
    given: &Arguments,
    bytes: usize,
    mut step: impl FnMut(&str, usize, &[u8], &mut Output) -> Result<usize, End>,
) -> Result<Verdict, End> {
    let mut capture = Capture::open(given.operand(0))?;
    let mut out = Output::of(given, capture.input(), Holds::Bytes)?;
    let name = capture.name().to_string();
    while capture.more(bytes, || Ok(()))? {
        let passed = step(&name, capture.place(), capture.rest(), &mut out)?;
        capture.pass(passed);
    }
    out.keep()?;
    Ok(Verdict::Accepted)
}
