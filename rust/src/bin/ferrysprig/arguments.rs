//! What each command takes: its table, what was given by it, and the help that it makes.

use crate::end::{End, Verdict};
use std::ffi::{OsStr, OsString};
use std::os::unix::ffi::OsStrExt;
use std::path::Path;

/// A command: what it is called with, what it does.
pub struct Command {
    pub name: &'static str,
    /// In a line.
    pub does: &'static str,
    /// What stands behind the options.
    pub operands: &'static [&'static str],
    pub options: &'static [Choice],
    /// What else its help says.
    pub more: &'static str,
    pub run: fn(&Arguments) -> Result<Verdict, End>,
}

/// An option.
pub struct Choice {
    pub name: &'static str,
    /// What its value is called, if it takes one.
    pub value: Option<&'static str>,
    pub does: &'static str,
}

/// The option of a command that writes its result over what it read: it takes an operand less.
pub const IN_PLACE: Choice = Choice {
    name: "--in-place",
    value: None,
    does: "write the result over IN; there is no OUT then",
};

/// An option without a value.
pub const fn flag(name: &'static str, does: &'static str) -> Choice {
    Choice {
        name,
        value: None,
        does,
    }
}

/// An option with a value.
pub const fn valued(name: &'static str, value: &'static str, does: &'static str) -> Choice {
    Choice {
        name,
        value: Some(value),
        does,
    }
}

impl Command {
    /// How it is called.
    pub fn usage(&self) -> String {
        let mut text = format!("usage: ferrysprig {}", self.name);
        if !self.options.is_empty() {
            text += " [OPTION]..";
        }
        for operand in self.operands {
            text += &format!(" {operand}");
        }
        text
    }

    /// What `--help` prints.
    pub fn help(&self) -> String {
        let mut text = format!("{}\n\n{}\n", self.usage(), self.does);
        if !self.more.is_empty() {
            text += &format!("\n{}\n", self.more);
        }
        if !self.options.is_empty() {
            text += "\nOptions:\n";
        }
        for option in self.options {
            let name = match option.value {
                Some(value) => format!("{} {value}", option.name),
                None => option.name.to_string(),
            };
            text += &format!("  {name:<16}  {}\n", option.does);
        }
        text
    }
}

/// What a command was given.
pub struct Arguments {
    operands: Vec<OsString>,
    chosen: Vec<(&'static str, OsString)>,
}

/// What stands on a command's line.
pub enum Given {
    Help,
    Arguments(Arguments),
}

impl Arguments {
    /// What the words behind a command's name give it.
    pub fn read(
        command: &Command,
        words: impl IntoIterator<Item = OsString>,
    ) -> Result<Given, End> {
        let mut words = words.into_iter();
        let mut given = Arguments {
            operands: Vec::new(),
            chosen: Vec::new(),
        };
        while let Some(word) = words.next() {
            if word == "--help" || word == "-h" {
                return Ok(Given::Help);
            } else if word == "--" {
                given.operands.extend(words.by_ref());
            } else if word == "-" || !word.as_bytes().starts_with(b"-") {
                given.operands.push(word);
            } else {
                let option = given.option(command, &word, &mut words)?;
                given.chosen.push(option);
            }
        }
        // With --in-place there is no OUT. What stands in brackets may be missing.
        let most = command.operands.len() - usize::from(given.has(IN_PLACE.name));
        let needed = command.operands[..most]
            .iter()
            .filter(|name| !name.starts_with('['));
        let missing = needed.clone().nth(given.operands.len());
        match (missing, given.operands.get(most)) {
            (Some(missing), _) => Err(End::Usage(format!(
                "{}: no {missing} is given",
                command.name
            ))),
            (None, Some(extra)) => {
                let extra = extra.to_string_lossy();
                Err(End::Usage(format!(
                    "{}: {extra} is one too many",
                    command.name
                )))
            }
            (None, None) => Ok(Given::Arguments(given)),
        }
    }

    /// The option of a word, with its value, which may be the word after it.
    fn option(
        &self,
        command: &Command,
        word: &OsStr,
        words: &mut impl Iterator<Item = OsString>,
    ) -> Result<(&'static str, OsString), End> {
        let bytes = word.as_bytes();
        let equals = bytes.iter().position(|byte| *byte == b'=');
        let name = OsStr::from_bytes(&bytes[..equals.unwrap_or(bytes.len())]);
        let told = equals.map(|at| OsStr::from_bytes(&bytes[at + 1..]).to_os_string());
        let wrong = |why: &str| {
            let shown = name.to_string_lossy();
            End::Usage(format!("{}: {why} {shown}", command.name))
        };
        let option = command.options.iter().find(|option| name == option.name);
        let option = option.ok_or_else(|| wrong("there is no option"))?;
        if self.has(option.name) {
            return Err(wrong("given twice is"));
        }
        let value = match (option.value, told) {
            (None, None) => OsString::new(),
            (None, Some(_)) => return Err(wrong("no value is taken by")),
            (Some(_), Some(value)) => value,
            (Some(_), None) => words
                .next()
                .ok_or_else(|| wrong("a value is missing for"))?,
        };
        Ok((option.name, value))
    }

    /// Whether an option was chosen.
    pub fn has(&self, name: &str) -> bool {
        self.value(name).is_some()
    }

    fn value(&self, name: &str) -> Option<&OsStr> {
        let mut chosen = self.chosen.iter();
        chosen
            .find(|(option, _)| *option == name)
            .map(|(_, value)| &**value)
    }

    /// An option's value as a path.
    pub fn path(&self, name: &str) -> Option<&Path> {
        self.value(name).map(Path::new)
    }

    /// An option's value as a number.
    pub fn number(&self, name: &str) -> Result<Option<usize>, End> {
        let Some(value) = self.value(name) else {
            return Ok(None);
        };
        let number = value.to_str().and_then(|text| text.parse().ok());
        let wrong = || End::Usage(format!("{name} is no number: {}", value.to_string_lossy()));
        number.map(Some).ok_or_else(wrong)
    }

    /// A number that stands behind the options.
    pub fn operand_number(&self, at: usize) -> Result<usize, End> {
        let told = self.operand(at);
        let number = told.to_str().and_then(|text| text.parse().ok());
        number.ok_or_else(|| End::Usage(format!("no number: {}", told.display())))
    }

    /// Two options that say different things are not given together.
    pub fn not_both(&self, one: &str, other: &str) -> Result<(), End> {
        match self.has(one) && self.has(other) {
            true => Err(End::Usage(format!(
                "{one} and {other} are not given together"
            ))),
            false => Ok(()),
        }
    }

    /// What stands at a place behind the options; all that the command names are there.
    pub fn operand(&self, at: usize) -> &Path {
        self.operands.get(at).map_or(Path::new(""), Path::new)
    }

    /// How many there are.
    pub fn operands(&self) -> usize {
        self.operands.len()
    }

    /// The last of them.
    pub fn last_operand(&self) -> &Path {
        self.operands.last().map_or(Path::new(""), Path::new)
    }
}
