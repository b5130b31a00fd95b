//! `vma attempt`: one call on files.

mod files;
mod guest_file;
mod lent;
mod options;

use std::ffi::OsString;

use crate::answer::Answer;
use crate::changes::{self, State};
use crate::command::{self, Action, Command, Failure, Report};
use crate::library;
use crate::record;
use crate::words;
use files::{Files, Start};
use options::Options;

pub const COMMAND: Command = Command { name: "attempt", help: HELP, action: Action::Run(run) };

const HELP: &str = "usage: vma attempt --storage FILE --keys FILE --guest FILE --first HEX [--expanded]

Makes one attempt at the instruction whose first halfword is HEX (4 hex digits), by the proved library.

  --storage FILE  the bytes of storage
  --keys FILE     one key byte for each 2,048 bytes of storage
  --guest FILE    the guest's record, as text: 21 words of 8 hex digits between white space; # begins a
                  comment. In this order: PSW bits 0-31, PSW bits 32-63, general registers 0-15, control
                  registers 0, 1 and 6. The PSW holds the address of this instruction.
  --first HEX     the first halfword of the instruction
  --expanded      the expanded assist is installed; bit 6 of control register 6 switches it on

Prints the ending, the count of references, the next instruction address, and each byte, key and word of the
record that changed, old -> new. If the attempt completes, the three files are written anew. Any other ending
leaves storage and record as they were, and of the keys all but reference bits that were recorded; if there
are such bits, the keys file alone is written anew. The new contents go to FILE.new beside each, and then take
FILE's place: if that is cut short, the next start says so, and either undoes it or finishes it.

Status: 0 completed; 1 error; 2 wrong usage; 3 an earlier call was finished, and no other made; 4 any other
ending than completion.
";

fn run(words: &[OsString]) -> Result<Report, Failure> {
    let options = Options::parse(words)?;
    let files = match Files::open(&options)? {
        Start::Ready(files) => files,
        Start::Finished => return Ok(Report::new(String::new(), command::FINISHED_EARLIER)),
    };
    let before = files.read()?;
    let mut after = before.clone();
    let result = library::attempt(
        &mut after.storage,
        &mut after.keys,
        &mut after.record,
        options.first_halfword,
        options.expanded,
    );
    let answer = Answer::unpack(result);
    let recorded = after.keys != before.keys;
    if answer.completed() {
        files.replace(&after)?;
    } else if recorded {
        files.replace_keys(&after.keys)?;
    }
    let files_written = answer.completed() || recorded;
    Ok(Report { files_written, ..report(answer, options.first_halfword, &before, &after) })
}

fn report(answer: Answer, first_halfword: u16, before: &State, after: &State) -> Report {
    let next = record::instruction_address(&after.record);
    let mut changes = changes::place_lines(before, after, changes::changed);
    changes.extend(changes::record_lines(&before.record, &after.record, changes::changed));
    if changes.is_empty() {
        changes.push("nothing changed".into());
    }
    let mut lines = vec![
        format!("ending {}", words::ending(answer, first_halfword)),
        format!("references {}", answer.count),
        format!("next instruction address {next:06X}"),
    ];
    lines.extend(changes);
    let status = if answer.completed() { command::COMPLETED } else { command::OTHER_ENDING };
    Report::new(lines.join("\n") + "\n", status)
}
