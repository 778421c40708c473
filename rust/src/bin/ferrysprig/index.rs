//! `index`: a list of a capture's frames with their levels, kept beside it and extended when it grows.

use crate::arguments::{flag, Arguments, Command};
use crate::end::{End, Verdict};
use crate::input::{Capture, Input};
use crate::output::{Holds, Output, Text};
use crate::words;
use ferrysprig::index::{Entry, Index, Refusal};
use ferrysprig::MOST_BYTES;
use std::path::Path;

pub const INDEX: Command = Command {
    name: "index",
    does: "Keeps an index of a growing capture, and tells where the level changed.",
    operands: &["make|extend|show", "[CAPTURE]", "INDEX"],
    options: &[flag("--changes", "print where the dialogue level changed")],
    more: "make CAPTURE INDEX    makes the index of a capture\n\
           extend CAPTURE INDEX  extends it by the frames that were appended since\n\
           show INDEX            prints its frames, or with --changes those with another level\n\n\
           A frame that is not yet whole is not in the index, and nothing behind it is. The index is\n\
           refused, and stays as it is, where the capture is not the one that it was made of. It has\n\
           five numbers to a frame (docs/FORMAT.md), each of eight bytes, the lowest first.",
    run,
};

fn run(given: &Arguments) -> Result<Verdict, End> {
    let (capture, index) = (given.operand(1), given.operand(2));
    match (given.operand(0).to_str(), given.operands()) {
        (Some("make"), 3) => make(given, capture, index),
        (Some("extend"), 3) => extend(given, capture, index),
        (Some("show"), 2) => show(given, given.operand(1)),
        _ => Err(End::Usage(
            "index: it is make CAPTURE INDEX, extend CAPTURE INDEX or show INDEX".into(),
        )),
    }
}

fn make(given: &Arguments, path: &Path, kept: &Path) -> Result<Verdict, End> {
    let mut capture = Capture::open(path)?;
    let out = Output::beside(kept, capture.input(), Holds::Bytes)?;
    let mut index = Index::new();
    grow(&mut index, &mut capture)?;
    written(given, &index, 0, out)
}

fn extend(given: &Arguments, path: &Path, kept: &Path) -> Result<Verdict, End> {
    let (mut index, input) = read(kept)?;
    let mut capture = Capture::open(path)?;
    let out = Output::over(kept, &input)?;
    let before = index.len();
    grow(&mut index, &mut capture)?;
    written(given, &index, before, out)
}

fn show(given: &Arguments, kept: &Path) -> Result<Verdict, End> {
    let (index, _) = read(kept)?;
    let mut text = Text::new()?;
    if given.has("--changes") {
        changes(&index, &mut text)?;
    } else {
        text.put("   frame          byte  bytes  acmod  dialnorm  dialnorm2\n")?;
        for (frame, entry) in index.entries().enumerate() {
            let second = entry
                .dialnorm2
                .map_or("-".into(), |level| level.to_string());
            text.put(format_args!(
                "{frame:>8}  {:>12}  {:>5}  {:>5}  {:>8}  {second:>9}\n",
                entry.place, entry.length, entry.acmod, entry.dialnorm
            ))?;
        }
    }
    text.flush()?;
    Ok(Verdict::Accepted)
}

/// Writes an index, and says what came to it.
fn written(
    given: &Arguments,
    index: &Index,
    before: usize,
    mut out: Output,
) -> Result<Verdict, End> {
    for number in index.numbers() {
        out.put(&number.to_le_bytes())?;
    }
    let silent = out.is_standard;
    out.keep()?;
    if !silent {
        let mut text = Text::new()?;
        if given.has("--changes") {
            changes(index, &mut text)?;
        }
        let (count, end) = (index.len(), index.end());
        let came = words::counted(count - before, "frame");
        text.put(format_args!("{came} came, {count} in all, to byte {end}\n"))?;
        text.flush()?;
    }
    Ok(Verdict::Accepted)
}

/// An index that is kept in a file, and the file.
fn read(kept: &Path) -> Result<(Index, Input), End> {
    let mut input = Input::open(kept)?;
    let bytes = input.whole()?;
    let numbers = bytes.chunks(8).map(|bytes| {
        let number = bytes.try_into().ok()?;
        usize::try_from(u64::from_le_bytes(number)).ok()
    });
    let numbers: Option<Vec<usize>> = numbers.collect();
    let index = numbers.and_then(Index::from_numbers);
    let index = index.ok_or_else(|| End::trouble(&input.name, "this is no index"))?;
    Ok((index, input))
}

/// A capture is gone through in pieces of so many bytes, at least as many as a frame has.
const PIECE: usize = 1 << 20;

/// Extends an index by what a capture has after its last frame, which is looked at again. The capture is gone through in pieces. What the walk
/// meets in a piece it meets in the whole: bytes that come later change refusals 1 and 4 alone, and there it ends.
fn grow(index: &mut Index, capture: &mut Capture) -> Result<(), End> {
    let mut numbers = index.numbers().to_vec();
    // Places are counted from the piece's begin, where the last frame stands.
    let begin = index.last().map_or(0, |last| last.place);
    let name = capture.name().to_string();
    let refused = |refusal| End::refused(&name, begin, refusal);
    let mut part = match index.last().map(|last| flat(last, 0)) {
        Some([_, numbers @ ..]) => Index::from_numbers([&[0], &numbers[..]].concat()),
        None => Some(Index::new()),
    }
    .ok_or_else(|| refused(Refusal::OtherEntry))?;
    if !capture.reach(begin)? {
        return Err(refused(Refusal::OtherEntry));
    }
    loop {
        capture.fill(PIECE)?;
        let (place, bytes) = (capture.place(), capture.rest());
        let known = part.len();
        part.extend(bytes).map_err(refused)?;
        for entry in part.entries().skip(known) {
            numbers.extend(flat(entry, place));
        }
        if capture.ended() {
            break;
        }
        // Before that byte whatever could begin has all of its bytes: no other frame begins there.
        let certain = bytes.len() + 1 - MOST_BYTES;
        let passed = part.end().max(certain);
        capture.pass(passed);
        part = Index::new();
    }
    capture.progress.clear();
    let grown = Index::from_numbers(numbers);
    *index = grown.ok_or_else(|| End::trouble(&name, "its frames are in no order"))?;
    Ok(())
}

/// An entry's numbers, with its place so many bytes on.
fn flat(entry: Entry, on: usize) -> [usize; 5] {
    [
        on + entry.place,
        entry.length,
        entry.acmod.into(),
        entry.dialnorm.into(),
        entry.dialnorm2.unwrap_or(0).into(),
    ]
}

/// A line for each change of a level.
fn changes(index: &Index, text: &mut Text) -> Result<(), End> {
    let mut before: Option<Entry> = None;
    for (frame, entry) in index.entries().enumerate() {
        if let Some(before) = before {
            let levels = [
                ("dialnorm", Some(before.dialnorm), Some(entry.dialnorm)),
                ("dialnorm2", before.dialnorm2, entry.dialnorm2),
            ];
            for (name, old, new) in levels.into_iter().filter(|(_, old, new)| old != new) {
                let place = entry.place;
                let told = |level: Option<u8>| level.map_or("none".into(), |n| n.to_string());
                let (old, new) = (told(old), told(new));
                text.put(format_args!(
                    "frame {frame} at byte {place}: {name} {old} to {new}\n"
                ))?;
            }
        }
        before = Some(entry);
    }
    Ok(())
}
