//! `vma`: the proved virtual-machine assist at the command line. docs/vma.1 is its manual page.

#![deny(unsafe_code)]

mod answer;
mod attempt;
mod bench;
mod changes;
mod command;
mod demo;
mod fuzz;
#[allow(unsafe_code)]
mod library;
mod record;
mod sides;
mod trail;
mod words;
mod written;

use std::ffi::OsString;
use std::io::Write;
use std::process::ExitCode;

use command::{say, unprintable, Action, Command, Failure, Report};

const VMA: Command = Command {
    name: "vma",
    help: HELP,
    action: Action::Choose(&[demo::COMMAND, attempt::COMMAND, bench::COMMAND, fuzz::COMMAND, trail::COMMAND]),
};

const HELP: &str = "usage: vma demo
       vma attempt --storage FILE --keys FILE --guest FILE --first HEX [--expanded]
       vma bench [--quick | --check]
       vma fuzz SEED N [--largest BYTES]
       vma trail show FILE [--registers]

The virtual-machine assist of System/370 for SSM, STCTL, STNSM, STOSM, SSK, ISK, RRB and LRA, by the proved
library.

  demo     the edges of document 01, of ISK and RRB, of LRA, of recording, of low-address protection and at
           the end of storage, with what comes of each
  attempt  one attempt, on storage, keys and a guest's record in files
  bench    the library's time for a call beside that of plain Rust
  fuzz     random calls, each also written down in a trail, compared with the second program
  trail    the calls that were written down in a trail file

`vma COMMAND --help` says more of each.
";

fn main() -> ExitCode {
    let words: Vec<OsString> = std::env::args_os().skip(1).collect();
    ExitCode::from(perform(&VMA, &words))
}

/// Do what the words after a command say; gives the exit status.
fn perform(command: &Command, words: &[OsString]) -> u8 {
    match command.action {
        Action::Choose(commands) => choose(command.help, commands, words),
        Action::Run(_) if words.iter().any(|word| word == "--help") => print_help(command.help),
        Action::Run(run) => match run(words) {
            Ok(report) => print(report),
            Err(Failure::Usage(message)) => wrong_usage(&message, command.help),
            Err(Failure::Error(message)) => {
                say(&message);
                command::ERROR
            }
        },
    }
}

/// The first word names the command, and the rest is for it.
fn choose(help: &str, commands: &[Command], words: &[OsString]) -> u8 {
    let Some((first, rest)) = words.split_first() else {
        return wrong_usage("no command is given", help);
    };
    if first == "--help" {
        return print_help(help);
    }
    match commands.iter().find(|command| first == command.name) {
        Some(command) => perform(command, rest),
        None => wrong_usage(&format!("there is no command '{}'", first.display()), help),
    }
}

fn wrong_usage(message: &str, help: &str) -> u8 {
    let usage = help.split("\n\n").next().unwrap_or(help);
    say(&format!("{message}\n{usage}"));
    command::USAGE
}

fn print_help(help: &str) -> u8 {
    print(Report::new(help.into(), command::COMPLETED))
}

fn print(report: Report) -> u8 {
    let mut output = std::io::stdout();
    match output.write_all(report.text.as_bytes()).and_then(|()| output.flush()) {
        Ok(()) => report.status,
        Err(error) => {
            let failure = match report.files_written {
                true => unprintable(error).and("the call is made and the files are written"),
                false => unprintable(error),
            };
            say(failure.message());
            command::ERROR
        }
    }
}
