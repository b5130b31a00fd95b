//! What the commands have in common: what they give, how they fail, and the words of the command line.

use std::ffi::{OsStr, OsString};
use std::io::{self, Write};

/// Exit statuses, as the man page lists them.
pub const COMPLETED: u8 = 0;
pub const ERROR: u8 = 1;
pub const USAGE: u8 = 2;
pub const FINISHED_EARLIER: u8 = 3;
pub const OTHER_ENDING: u8 = 4;
pub const TURNED_AWAY: u8 = 5;

/// What a command gives: text for standard output, and the exit status.
pub struct Report {
    pub text: String,
    pub status: u8,
    /// Files were written: to be said if the text can't be printed.
    pub files_written: bool,
}

impl Report {
    pub fn new(text: String, status: u8) -> Report {
        Report { text, status, files_written: false }
    }
}

/// Why a command gives nothing, in words.
#[derive(Debug, PartialEq, Eq)]
pub enum Failure {
    /// The command line is wrong.
    Usage(String),
    Error(String),
}

impl Failure {
    pub fn message(&self) -> &str {
        match self {
            Failure::Usage(message) | Failure::Error(message) => message,
        }
    }

    /// The same, with more to say.
    pub fn and(self, more: &str) -> Failure {
        match self {
            Failure::Usage(message) => Failure::Usage(format!("{message}; {more}")),
            Failure::Error(message) => Failure::Error(format!("{message}; {more}")),
        }
    }
}

/// A command: its name, its help (the usage up to the first empty line), and what it does.
pub struct Command {
    pub name: &'static str,
    pub help: &'static str,
    pub action: Action,
}

pub enum Action {
    /// What is to be printed, but for what it has printed itself because that may be long.
    Run(fn(&[OsString]) -> Result<Report, Failure>),
    /// The next word names one of these.
    Choose(&'static [Command]),
}

/// The words after the command, taken one by one.
pub struct Words<'a> {
    rest: std::slice::Iter<'a, OsString>,
}

impl<'a> Words<'a> {
    pub fn new(words: &'a [OsString]) -> Words<'a> {
        Words { rest: words.iter() }
    }

    pub fn next(&mut self) -> Option<&'a OsStr> {
        self.rest.next().map(OsString::as_os_str)
    }

    /// The word after an option.
    pub fn value(&mut self, option: &str) -> Result<&'a OsStr, Failure> {
        self.next().ok_or_else(|| Failure::Usage(format!("{option} needs a word after it")))
    }
}

/// Put an option's value in its place; it may stand there once.
pub fn put_once<T>(place: &mut Option<T>, option: &str, value: T) -> Result<(), Failure> {
    match place.replace(value) {
        None => Ok(()),
        Some(_) => Err(Failure::Usage(format!("{option} is given twice"))),
    }
}

/// A word that the command doesn't know.
pub fn unknown(word: &OsStr) -> Failure {
    Failure::Usage(format!("'{}' isn't known here", word.display()))
}

/// A decimal number.
pub fn number(what: &str, word: &OsStr) -> Result<u64, Failure> {
    let digits = word.to_str().filter(|text| text.bytes().all(|byte| byte.is_ascii_digit()));
    digits.and_then(|digits| digits.parse().ok()).ok_or_else(|| {
        Failure::Usage(format!("{what} is a decimal number below 2^64, which '{}' is not", word.display()))
    })
}

/// Standard output can't be written.
pub fn unprintable(error: io::Error) -> Failure {
    Failure::Error(format!("the result can't be printed: {error}"))
}

/// A message on standard error. If even that can't be written, the exit status has to do.
pub fn say(message: &str) {
    let _ = writeln!(io::stderr(), "vma: {message}");
}
