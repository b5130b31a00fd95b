//! `vma fuzz`: random calls, by the library and by the second program.

mod area;
mod compare;
mod difference;
mod plan;
mod search;
mod tally;
mod trails;

use std::ffi::OsString;

use crate::command::{self, number, put_once, unknown, Action, Command, Failure, Report, Words};
use crate::sides;
use plan::{Plan, BLOCK};

pub const COMMAND: Command = Command { name: "fuzz", help: HELP, action: Action::Run(run) };

const HELP: &str = "usage: vma fuzz SEED N [--largest BYTES]

Makes N random calls, which follow from the number SEED alone, by the proved library and by the second
program (without its list of references), and compares all that comes of each: the ending with what it
carries, the count, the 21 words of the record, every byte of storage and every key. Calls are built to
complete, and three in four then damaged near an edge; every eighth batch of 16 is a list of calls on one
storage. Storage has up to 16 MiB, and sometimes a block more, which is too much.

Each call is also written down by both, each in a trail of its own, and all that comes of this is compared:
the refusal, the number of records held, every byte of both buffers. A buffer has up to 5000 bytes. About one
writing call in five is damaged: a wrong number is given, a number of the trailer is changed, or the buffer is
lent in part.

  --largest BYTES  no storage is larger than this, which is 2048 at least

Prints how many calls ended with each ending, and how many writing calls went in, were turned away, and were
refused by 20 and by 21; or the first call that differs, in full, with status 1.
";

fn run(words: &[OsString]) -> Result<Report, Failure> {
    let plan = plan(words)?;
    let (tally, difference) = search::search(&plan, sides::LIBRARY)?;
    Ok(match difference {
        Some(text) => Report::new(text, command::ERROR),
        None => {
            let text = format!("{} calls, none differs\n{}", plan.calls, tally.text());
            Report::new(text, command::COMPLETED)
        }
    })
}

fn plan(words: &[OsString]) -> Result<Plan, Failure> {
    let (mut numbers, mut largest) = (Vec::new(), None);
    let mut words = Words::new(words);
    while let Some(word) = words.next() {
        match word.to_str() {
            Some(option @ "--largest") => {
                put_once(&mut largest, option, number("--largest", words.value(option)?)?)?;
            }
            Some(text) if text.starts_with('-') || numbers.len() == 2 => return Err(unknown(word)),
            _ => numbers.push(number(["SEED", "N"][numbers.len()], word)?),
        }
    }
    let [seed, calls] = numbers[..] else {
        return Err(Failure::Usage(format!("{} is missing", ["SEED", "N"][numbers.len()])));
    };
    Ok(Plan { seed, calls, largest: largest.map(storage_size).transpose()? })
}

fn storage_size(bytes: u64) -> Result<usize, Failure> {
    let size = usize::try_from(bytes).ok().filter(|&size| size >= BLOCK);
    size.ok_or_else(|| Failure::Usage(format!("--largest is {BLOCK} at least, which {bytes} is not")))
}
