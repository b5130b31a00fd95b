//! `vma trail`: files in which calls were written down.

mod checks;
mod ends;
mod form;
mod lines;
mod progress;
mod reader;
mod show;
mod source;

use crate::command::{Action, Command};

pub const COMMAND: Command = Command { name: "trail", help: HELP, action: Action::Choose(&[show::COMMAND]) };

const HELP: &str = "usage: vma trail show FILE [--registers]

A trail is a list of calls, written down one after another as they were made: a record of 128 bytes for each,
and a trailer of 16 bytes after the last one, which also counts the calls that found no room.

  show  prints the records, and how many calls were turned away

`vma trail show --help` says more.
";
