//! `ferrysprig`: what is proved, at a terminal. One command for each operation of the crate; docs/COMMAND.md shows them.
//!
//! The exit status is 0 if nothing was refused, 1 if something was, 2 if it was called wrongly, could not read or could not write. A
//! refusal is told on standard error by its number, its text and its place.

#![forbid(unsafe_code)]

mod arguments;
mod bits;
mod burst;
mod completion;
mod end;
mod frames;
mod index;
mod input;
mod json;
mod list;
mod output;
mod pack;
mod progress;
mod salvage;
mod set_level;
mod words;

use arguments::{Arguments, Command, Given};
use end::{End, Verdict};
use std::ffi::{OsStr, OsString};
use std::process::ExitCode;

const COMMANDS: &[Command] = &[
    list::LIST,
    frames::LEVELS,
    frames::HEADER,
    frames::PROFILE,
    bits::BITS,
    set_level::SET_LEVEL,
    burst::BURST,
    burst::UNBURST,
    salvage::SALVAGE,
    index::INDEX,
    pack::PACK,
    pack::UNPACK,
    completion::COMPLETION,
];

const USAGE: &str = "usage: ferrysprig COMMAND [OPTION].. OPERAND..";

fn main() -> ExitCode {
    // Not `args`, which panics where an argument is not Unicode.
    let mut words = std::env::args_os().skip(1);
    let Some(first) = words.next() else {
        return end::status(Err(End::Usage("no command is given".into())), help);
    };
    let words: Vec<OsString> = words.collect();
    match command(&first) {
        Some(command) => end::status(run(command, words), || {
            format!(
                "{}\nSee `ferrysprig {} --help`.",
                command.usage(),
                command.name
            )
        }),
        None => end::status(other(&first, &words), || {
            format!("{USAGE}\nSee `ferrysprig --help`.")
        }),
    }
}

fn command(name: &OsStr) -> Option<&'static Command> {
    COMMANDS.iter().find(|command| name == command.name)
}

fn run(command: &Command, words: Vec<OsString>) -> Result<Verdict, End> {
    match Arguments::read(command, words)? {
        Given::Help => said(command.help()),
        Given::Arguments(given) => (command.run)(&given),
    }
}

/// What begins with no command.
fn other(first: &OsStr, words: &[OsString]) -> Result<Verdict, End> {
    match (first.to_str(), words) {
        (Some("--help" | "-h" | "help"), []) => said(help()),
        (Some("help"), [name]) => match command(name) {
            Some(command) => said(command.help()),
            None => Err(unknown(name)),
        },
        (Some("--version" | "-V"), []) => {
            said(format!("ferrysprig {}\n", env!("CARGO_PKG_VERSION")))
        }
        (Some("--help" | "-h" | "help" | "--version" | "-V"), _) => {
            Err(End::Usage("that is more than it takes".into()))
        }
        _ => Err(unknown(first)),
    }
}

fn unknown(name: &OsStr) -> End {
    End::Usage(format!("there is no command {}", name.to_string_lossy()))
}

fn said(text: String) -> Result<Verdict, End> {
    output::print(text)?;
    Ok(Verdict::Accepted)
}

fn help() -> String {
    let mut text = format!(
        "{USAGE}\n\nReads AC-3 frames by a parser whose every answer is proved.\n\nCommands:\n"
    );
    for command in COMMANDS {
        text += &format!("  {:<10}  {}\n", command.name, command.does);
    }
    text + "\nA FILE or IN named - is standard input, an OUT named - standard output.\n\
            `ferrysprig COMMAND --help` says more of a command.\n\
            Exit status: 0 nothing was refused, 1 something was, 2 called wrongly, or trouble.\n"
}
