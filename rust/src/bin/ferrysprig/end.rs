//! How a run of the command ends, and what it says then.

use std::fmt::Display;
use std::io::{self, ErrorKind, Write};
use std::process::ExitCode;

/// What was found, where everything could be read and written.
#[derive(Clone, Copy, PartialEq, Eq)]
pub enum Verdict {
    /// Nothing was refused: exit status 0.
    Accepted,
    /// Something was, as the output tells: exit status 1.
    Refused,
}

/// Why a run ended early.
pub enum End {
    /// Something of the input was refused: number, text and place. Exit status 1.
    Refused(String),
    /// It could not read, write or print. Exit status 2.
    Trouble(String),
    /// It was called wrongly. Exit status 2, and how it is called.
    Usage(String),
    /// Whoever read the output has gone. Exit status 2, and nothing is said: nobody asked for more.
    Closed,
}

pub const REFUSED: u8 = 1;
pub const TROUBLE: u8 = 2;

impl End {
    /// Trouble with a file, by its name.
    pub fn trouble(name: &str, why: impl Display) -> End {
        End::Trouble(format!("{name}: {why}"))
    }

    /// A refusal, at a byte of a file.
    pub fn refused(name: &str, place: usize, refusal: impl Display) -> End {
        End::Refused(format!("{name}: at byte {place}: {refusal}"))
    }

    /// Output that could not be written.
    pub fn unwritten(name: &str, why: io::Error) -> End {
        match why.kind() {
            ErrorKind::BrokenPipe => End::Closed,
            _ => End::trouble(name, why),
        }
    }
}

/// Says something on standard error. (Not by `eprintln`, which panics where that is closed or full.)
pub fn say(text: impl Display) {
    let _ = writeln!(io::stderr(), "{text}");
}

/// Says why a run ended, if there is something to be said, and gives the exit status.
pub fn status(answer: Result<Verdict, End>, usage: impl Fn() -> String) -> ExitCode {
    let (status, message) = match answer {
        Ok(Verdict::Accepted) => return ExitCode::SUCCESS,
        Ok(Verdict::Refused) => (REFUSED, None),
        Err(End::Refused(message)) => (REFUSED, Some(message)),
        Err(End::Trouble(message)) => (TROUBLE, Some(message)),
        Err(End::Usage(message)) => (TROUBLE, Some(format!("{message}\n{}", usage()))),
        Err(End::Closed) => (TROUBLE, None),
    };
    if let Some(message) = message {
        say(format_args!("ferrysprig: {message}"));
    }
    ExitCode::from(status)
}
