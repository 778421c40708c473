//! `salvage`: what is left of a damaged capture.

use crate::arguments::{flag, Arguments, Command, IN_PLACE};
use crate::end::{End, Verdict};
use crate::input::Input;
use crate::output::{Holds, Output, Text};
use crate::progress::Progress;
use crate::words;
use ferrysprig::salvage::{salvage_stream, Entry, Trouble};
use std::cell::RefCell;
use std::io::{self, Read};

pub const SALVAGE: Command = Command {
    name: "salvage",
    does: "Writes the frames that are left of a damaged capture, and prints its gaps.",
    operands: &["IN", "OUT"],
    options: &[flag("--frames", "print where the frames are, too"), IN_PLACE],
    more: "A frame that is accepted need not be sound: neither mantissas nor checksums are looked at.\n\
           The exit status is 0 if there is no gap, 1 if there is one.",
    run,
};

/// What was met so far.
#[derive(Default)]
struct Tally {
    frames: usize,
    gaps: usize,
    lost: usize,
}

fn run(given: &Arguments) -> Result<Verdict, End> {
    let input = Input::open(given.operand(0))?;
    let mut out = Output::of(given, &input, Holds::Bytes)?;
    let mut text = match out.is_standard {
        true => None,
        false => Some(Text::new()?),
    };
    let (read, written) = (input.name.clone(), out.name.clone());
    let progress = RefCell::new(Progress::new(input.length()));
    let mut tally = Tally::default();
    let mut printed = Ok(());
    let counted = Counted {
        input,
        progress: &progress,
        read: 0,
    };
    let walked = salvage_stream(counted, &mut out, |entry| {
        tally.count(entry);
        if let (Some(text), Ok(())) = (&mut text, &printed) {
            if entry.is_gap() || given.has("--frames") {
                if text.on_terminal() {
                    progress.borrow_mut().clear();
                }
                printed = text.put(line(entry));
            }
        }
    });
    drop(progress);
    match walked {
        Ok(()) => out.keep()?,
        Err(Trouble::Read(why)) => return Err(End::trouble(&read, why)),
        Err(Trouble::Write(why)) => return Err(End::unwritten(&written, why)),
        Err(other) => return Err(End::trouble(&read, other)),
    }
    // The file is there, whether somebody reads the list or not.
    printed?;
    if let Some(text) = &mut text {
        text.put(tally.line())?;
        text.flush()?;
    }
    Ok(match tally.gaps {
        0 => Verdict::Accepted,
        _ => Verdict::Refused,
    })
}

fn line(entry: Entry) -> String {
    let kind = if entry.is_gap() { "gap" } else { "frame" };
    let (place, length) = (entry.range().start, entry.range().len());
    format!("{kind} at byte {place}, length {length}\n")
}

impl Tally {
    fn count(&mut self, entry: Entry) {
        match entry {
            Entry::Frame { .. } => self.frames += 1,
            Entry::Gap { length, .. } => {
                self.gaps += 1;
                self.lost += length;
            }
        }
    }

    fn line(&self) -> String {
        let frames = words::counted(self.frames, "frame");
        let gaps = words::counted(self.gaps, "gap");
        let lost = words::counted(self.lost, "byte");
        format!("{frames}, {gaps}, {lost} lost\n")
    }
}

/// An input whose bytes are counted for the progress.
struct Counted<'a> {
    input: Input,
    progress: &'a RefCell<Progress>,
    read: usize,
}

impl Read for Counted<'_> {
    fn read(&mut self, bytes: &mut [u8]) -> io::Result<usize> {
        let read = self.input.read(bytes)?;
        self.read += read;
        self.progress.borrow_mut().tick(self.read);
        Ok(read)
    }
}
