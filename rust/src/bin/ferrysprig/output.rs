//! What is written: text on standard output, and files that are whole or not there.

use crate::arguments::{Arguments, IN_PLACE};
use crate::end::End;
use crate::input::Input;
use std::fmt::Display;
use std::fs::{self, File, Metadata};
use std::io::{self, BufWriter, ErrorKind, IsTerminal, Write};
use std::os::fd::AsFd;
use std::os::unix::fs::MetadataExt;
use std::path::{Path, PathBuf};

const STANDARD_OUTPUT: &str = "standard output";

/// Standard output as a file: what could not be written is told, and not lost in a buffer of its own.
fn standard_output() -> Result<File, End> {
    let owned = io::stdout().as_fd().try_clone_to_owned();
    owned
        .map(File::from)
        .map_err(|why| End::unwritten(STANDARD_OUTPUT, why))
}

/// Text on standard output.
pub struct Text {
    out: BufWriter<File>,
    terminal: bool,
}

impl Text {
    pub fn new() -> Result<Text, End> {
        let out = standard_output()?;
        Ok(Text {
            terminal: out.is_terminal(),
            out: BufWriter::with_capacity(1 << 16, out),
        })
    }

    pub fn on_terminal(&self) -> bool {
        self.terminal
    }

    /// Prints something.
    pub fn put(&mut self, text: impl Display) -> Result<(), End> {
        let put = write!(self.out, "{text}");
        put.map_err(|why| End::unwritten(STANDARD_OUTPUT, why))
    }

    /// Has everything printed: also what a refusal comes after.
    pub fn flush(&mut self) -> Result<(), End> {
        let flushed = self.out.flush();
        flushed.map_err(|why| End::unwritten(STANDARD_OUTPUT, why))
    }
}

/// What an output holds: bytes do not belong on a terminal.
#[derive(Clone, Copy, PartialEq, Eq)]
pub enum Holds {
    Text,
    Bytes,
}

/// Prints a text that is there already.
pub fn print(text: impl Display) -> Result<(), End> {
    let mut out = Text::new()?;
    out.put(text)?;
    out.flush()
}

/// A file that is written. It is written beside its place and gets there by `keep`, whole: before, and where that is never called, what
/// stood there stands there still. Standard output (`-`), a pipe or a device is written to straight away.
pub struct Output {
    /// What messages call it.
    pub name: String,
    /// Whether it is standard output: then nothing else is printed there.
    pub is_standard: bool,
    file: BufWriter<File>,
    /// Where it is written, and where it belongs.
    beside: Option<(PathBuf, PathBuf)>,
}

impl Output {
    /// A file for what comes of an input, which is another one.
    pub fn beside(path: &Path, input: &Input, holds: Holds) -> Result<Output, End> {
        if path.as_os_str() == "-" {
            return Output::standard(holds);
        }
        let there = fs::metadata(path).ok();
        if there
            .as_ref()
            .is_some_and(|there| same(there, &input.metadata))
        {
            let why = "it is the input, and is not written over";
            return Err(End::trouble(&path.display().to_string(), why));
        }
        Output::at(path, there)
    }

    /// The last of the files that a command was given: another one than the input, or that, if it is asked for.
    pub fn of(given: &Arguments, input: &Input, holds: Holds) -> Result<Output, End> {
        match given.has(IN_PLACE.name) {
            true => Output::over(given.last_operand(), input),
            false => Output::beside(given.last_operand(), input, holds),
        }
    }

    /// The file that an input came from.
    pub fn over(path: &Path, input: &Input) -> Result<Output, End> {
        if !input.metadata.is_file() || path.as_os_str() == "-" {
            let why = "it is no file, and cannot be written over";
            return Err(End::trouble(&input.name, why));
        }
        Output::at(path, Some(input.metadata.clone()))
    }

    fn standard(holds: Holds) -> Result<Output, End> {
        let file = standard_output()?;
        if holds == Holds::Bytes && file.is_terminal() {
            let why = "it is a terminal, and the output no text; name a file";
            return Err(End::trouble(STANDARD_OUTPUT, why));
        }
        let mut standard = Output::to(STANDARD_OUTPUT.into(), file, None);
        standard.is_standard = true;
        Ok(standard)
    }

    fn at(path: &Path, there: Option<Metadata>) -> Result<Output, End> {
        let name = path.display().to_string();
        let opened = match &there {
            Some(other) if !other.is_file() => open_straight(path),
            _ => open_beside(path, there.as_ref()),
        };
        match opened {
            Ok((file, beside)) => Ok(Output::to(name, file, beside)),
            Err(why) => Err(End::unwritten(&name, why)),
        }
    }

    fn to(name: String, file: File, beside: Option<(PathBuf, PathBuf)>) -> Output {
        Output {
            name,
            is_standard: false,
            file: BufWriter::with_capacity(1 << 16, file),
            beside,
        }
    }

    pub fn put(&mut self, bytes: &[u8]) -> Result<(), End> {
        let written = self.file.write_all(bytes);
        written.map_err(|why| End::unwritten(&self.name, why))
    }

    /// Has it in its place, whole.
    pub fn keep(mut self) -> Result<(), End> {
        let kept = match &self.beside {
            None => self.file.flush(),
            Some((written, place)) => self
                .file
                .flush()
                .and_then(|()| self.file.get_ref().sync_all())
                .and_then(|()| fs::rename(written, place)),
        };
        kept.map_err(|why| End::unwritten(&self.name, why))?;
        self.beside = None;
        Ok(())
    }
}

impl Write for Output {
    fn write(&mut self, bytes: &[u8]) -> io::Result<usize> {
        self.file.write(bytes)
    }

    fn flush(&mut self) -> io::Result<()> {
        self.file.flush()
    }
}

impl Drop for Output {
    fn drop(&mut self) {
        if let Some((written, _)) = &self.beside {
            let _ = fs::remove_file(written);
        }
    }
}

fn same(one: &Metadata, other: &Metadata) -> bool {
    one.is_file() && (one.dev(), one.ino()) == (other.dev(), other.ino())
}

type Opened = io::Result<(File, Option<(PathBuf, PathBuf)>)>;

/// A pipe or a device. (A folder cannot be opened so.)
fn open_straight(path: &Path) -> Opened {
    Ok((File::options().write(true).open(path)?, None))
}

/// A new file beside the one of that path, with its permissions if it is there. A link is followed.
fn open_beside(path: &Path, there: Option<&Metadata>) -> Opened {
    let place = match there {
        Some(_) => {
            // What may not be written is not replaced.
            File::options().write(true).open(path)?;
            fs::canonicalize(path)?
        }
        None => path.to_path_buf(),
    };
    if place.file_name().is_none() {
        return Err(io::Error::new(ErrorKind::InvalidInput, "it names no file"));
    }
    let mut attempt = 0;
    loop {
        let hidden = format!(".ferrysprig-{}-{attempt}.part", std::process::id());
        let written = place.with_file_name(hidden);
        match File::options().write(true).create_new(true).open(&written) {
            Err(why) if why.kind() == ErrorKind::AlreadyExists && attempt < 100 => attempt += 1,
            Err(why) => return Err(why),
            Ok(file) => {
                let allowed =
                    there.map_or(Ok(()), |there| file.set_permissions(there.permissions()));
                return match allowed {
                    Ok(()) => Ok((file, Some((written, place)))),
                    Err(why) => fs::remove_file(written).and(Err(why)),
                };
            }
        }
    }
}
