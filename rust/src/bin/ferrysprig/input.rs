//! What is read: a file, or standard input for `-`; piece by piece, so that it may be larger than memory.

use crate::end::End;
use crate::progress::Progress;
use std::fs::{File, Metadata};
use std::io::{self, ErrorKind, IsTerminal, Read, Seek, SeekFrom};
use std::os::fd::AsFd;
use std::path::Path;

/// A file that is read from.
pub struct Input {
    /// What messages call it.
    pub name: String,
    file: File,
    /// Where it is told apart from a file that is written.
    pub metadata: Metadata,
}

impl Input {
    pub fn open(path: &Path) -> Result<Input, End> {
        let (name, file) = match path.as_os_str() == "-" {
            true => ("standard input".to_string(), standard_input()),
            false => (path.display().to_string(), File::open(path)),
        };
        let opened = file.and_then(|file| Ok((file.metadata()?, file)));
        let (metadata, file) = opened.map_err(|why| End::trouble(&name, why))?;
        if file.is_terminal() {
            return Err(End::trouble(&name, "it is a terminal; name a file"));
        }
        Ok(Input {
            name,
            file,
            metadata,
        })
    }

    /// Its bytes, where they are known beforehand.
    pub fn length(&self) -> Option<usize> {
        let length = usize::try_from(self.metadata.len()).ok();
        length.filter(|_| self.metadata.is_file())
    }

    /// Goes on by so many bytes.
    fn skip(&mut self, bytes: usize) -> Result<(), End> {
        let far = i64::try_from(bytes).unwrap_or(i64::MAX);
        let moved = self.file.seek(SeekFrom::Current(far));
        moved.map(drop).map_err(|why| End::trouble(&self.name, why))
    }

    /// All of it, for what is held at once.
    pub fn whole(&mut self) -> Result<Vec<u8>, End> {
        let mut bytes = Vec::new();
        match self.file.read_to_end(&mut bytes) {
            Ok(_) => Ok(bytes),
            Err(why) => Err(End::trouble(&self.name, why)),
        }
    }
}

impl Read for Input {
    fn read(&mut self, bytes: &mut [u8]) -> io::Result<usize> {
        self.file.read(bytes)
    }
}

/// Standard input as a file: it is read without a buffer of its own, and has the metadata of one.
fn standard_input() -> io::Result<File> {
    Ok(File::from(io::stdin().as_fd().try_clone_to_owned()?))
}

/// So many bytes are asked for at once.
const PIECE: usize = 1 << 18;

/// A capture, gone through from its begin to its end. A part of it is held.
pub struct Capture {
    input: Input,
    held: Vec<u8>,
    /// The first byte that is held and not yet passed, and its place in the capture.
    first: usize,
    place: usize,
    ended: bool,
    /// Whether `more` was asked for before.
    begun: bool,
    pub progress: Progress,
}

impl Capture {
    pub fn open(path: &Path) -> Result<Capture, End> {
        let input = Input::open(path)?;
        let progress = Progress::new(input.length());
        Ok(Capture {
            input,
            held: Vec::new(),
            first: 0,
            place: 0,
            ended: false,
            begun: false,
            progress,
        })
    }

    pub fn input(&self) -> &Input {
        &self.input
    }

    pub fn name(&self) -> &str {
        &self.input.name
    }

    /// The place of the first byte that was not passed.
    pub fn place(&self) -> usize {
        self.place
    }

    /// What is held from there on.
    pub fn rest(&self) -> &[u8] {
        &self.held[self.first..]
    }

    /// Whether that is so many bytes, or all that there are.
    fn has(&self, bytes: usize) -> bool {
        self.ended || self.rest().len() >= bytes
    }

    /// Whether all that there is was read.
    pub fn ended(&self) -> bool {
        self.ended
    }

    /// Has so many bytes held, or all that there are.
    pub fn fill(&mut self, bytes: usize) -> Result<(), End> {
        while !self.has(bytes) {
            self.held.drain(..self.first);
            self.first = 0;
            let old = self.held.len();
            self.held.resize(old + PIECE, 0);
            let read = self.input.read(&mut self.held[old..]);
            self.held
                .truncate(old + read.as_ref().map_or(0, |count| *count));
            match read {
                Ok(0) => self.ended = true,
                Err(why) if why.kind() != ErrorKind::Interrupted => {
                    return Err(End::trouble(&self.input.name, why));
                }
                _ => (),
            }
        }
        Ok(())
    }

    /// Goes on by some of the bytes that are held.
    pub fn pass(&mut self, bytes: usize) {
        self.first += bytes;
        self.place += bytes;
        self.progress.tick(self.place);
    }

    /// Goes on to a byte of the capture, without reading what stands before it where that can be; no if it has not so many.
    pub fn reach(&mut self, place: usize) -> Result<bool, End> {
        if self.place == 0 && self.held.is_empty() {
            if let Some(length) = self.input.length() {
                if place <= length {
                    self.input.skip(place)?;
                    self.place = place;
                }
                return Ok(place <= length);
            }
        }
        while self.place < place {
            self.fill(1)?;
            let passed = self.rest().len().min(place - self.place);
            if passed == 0 {
                return Ok(false);
            }
            self.pass(passed);
        }
        Ok(true)
    }

    /// The same, for a byte that was asked for.
    pub fn seek(&mut self, place: usize) -> Result<(), End> {
        match self.reach(place)? {
            true => Ok(()),
            false => Err(End::trouble(
                self.name(),
                format_args!("it has no byte {place}"),
            )),
        }
    }

    /// Whether there is more to go through: then so many bytes of it are held, or all that are left. It is so at first even where nothing
    /// is left, which is then refused. `before` is called where input may have to be waited for.
    pub fn more(
        &mut self,
        bytes: usize,
        before: impl FnOnce() -> Result<(), End>,
    ) -> Result<bool, End> {
        if !self.has(bytes) {
            before()?;
            self.fill(bytes)?;
        }
        let first = !std::mem::replace(&mut self.begun, true);
        Ok(first || !self.rest().is_empty())
    }
}
