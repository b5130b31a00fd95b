//! `vma bench`: the library's time for a call beside that of plain Rust.

mod attempts;
mod trails;

use std::ffi::OsString;
use std::time::Instant;

use second::Instruction;

use self::attempts::Attempt;
use self::trails::{Room, Writing};
use crate::command::{self, put_once, unknown, Action, Command, Failure, Report};

pub const COMMAND: Command = Command { name: "bench", help: HELP, action: Action::Run(run) };

const HELP: &str = "usage: vma bench [--quick | --check]

Measures the time of a call, by the proved library and by plain Rust (the second program without its list of
references): attempts that complete, each of the eight instructions with DAT off and on, in 64 KiB and in 16
MiB of storage; and writing calls, in the trail of a buffer of 64 KiB and of 16 MiB, whose record is the last
that goes in, or is turned away. Both make the same calls, by turns; first it is made sure that they give the
same. Prints nanoseconds for a call, each the median of 200 batches of 2,000 calls, and the ratio library /
plain; below, the largest of these ratios, and the largest ratio of the library's times in 16 MiB and in
64 KiB.

  --quick  40 batches of 500 calls
  --check  measures nothing: each call is made twice by both, for the comparison alone, and its name printed
";

const SIZES: [(usize, &str); 2] = [(0x1_0000, "64 KiB"), (0x100_0000, "16 MiB")];

/// How much is measured.
#[derive(Clone, Copy)]
struct Effort {
    rounds: usize,
    calls: u32,
}

const FULL: Effort = Effort { rounds: 200, calls: 2_000 };
const QUICK: Effort = Effort { rounds: 40, calls: 500 };

/// A call that can be made again and again, by both sides.
trait Measured {
    /// Nanoseconds for a call of the library, over so many calls.
    fn library_batch(&mut self, calls: u32) -> f64;
    /// The same for plain Rust.
    fn plain_batch(&mut self, calls: u32) -> f64;
}

/// A call, and the times measured for it, in nanoseconds for a call.
struct Row {
    title: String,
    call: Box<dyn Measured>,
    library: Vec<f64>,
    plain: Vec<f64>,
}

impl Row {
    fn new(title: String, call: Box<dyn Measured>) -> Row {
        Row { title, call, library: Vec::new(), plain: Vec::new() }
    }
}

fn run(words: &[OsString]) -> Result<Report, Failure> {
    let effort = effort(words)?;
    let mut rows = rows()?;
    let text = match effort {
        None => rows.iter().map(|row| format!("{}\n", row.title)).collect(),
        Some(effort) => {
            measure(&mut rows, effort);
            table(&mut rows, effort)
        }
    };
    Ok(Report::new(text, command::COMPLETED))
}

/// Rows of one call in each of the sizes stand together.
fn rows() -> Result<Vec<Row>, Failure> {
    let mut rows = Vec::new();
    for instruction in Instruction::ALL {
        for (dat, dat_words) in [(false, "DAT off"), (true, "DAT on ")] {
            for (size, size_words) in SIZES {
                let title = format!("{:5}  {dat_words}  {size_words}", instruction.mnemonic());
                let call = Attempt::new(&title, instruction, dat, size)?;
                rows.push(Row::new(title, Box::new(call)));
            }
        }
    }
    for (room, room_words) in [(Room::One, "goes in"), (Room::None, "is full")] {
        for (size, size_words) in SIZES {
            let title = format!("trail  {room_words}  {size_words}");
            let call = Writing::new(&title, room, size)?;
            rows.push(Row::new(title, Box::new(call)));
        }
    }
    Ok(rows)
}

/// How much to measure; none if it is only to be made sure that both give the same.
fn effort(words: &[OsString]) -> Result<Option<Effort>, Failure> {
    let mut chosen: Option<(&str, Option<Effort>)> = None;
    for word in words {
        let (option, effort) = match word.to_str() {
            Some(option @ "--quick") => (option, Some(QUICK)),
            Some(option @ "--check") => (option, None),
            _ => return Err(unknown(word)),
        };
        match chosen {
            Some((other, _)) if other != option => {
                return Err(Failure::Usage(format!("{other} and {option} exclude each other")));
            }
            _ => put_once(&mut chosen, option, (option, effort))?,
        }
    }
    Ok(chosen.map_or(Some(FULL), |(_, effort)| effort))
}

/// Batches of all rows and both sides by turns: whatever slows the machine down for a while slows down all of
/// them. Which side goes first changes from round to round.
fn measure(rows: &mut [Row], effort: Effort) {
    for round in 0..effort.rounds {
        for row in &mut *rows {
            let Row { call, library, plain, .. } = row;
            if round % 2 == 0 {
                library.push(call.library_batch(effort.calls));
                plain.push(call.plain_batch(effort.calls));
            } else {
                plain.push(call.plain_batch(effort.calls));
                library.push(call.library_batch(effort.calls));
            }
        }
    }
}

/// Nanoseconds for a call, after some that aren't measured: they bring what is needed into the caches.
fn batch(calls: u32, mut call: impl FnMut()) -> f64 {
    for _ in 0..calls / 10 {
        call();
    }
    let start = Instant::now();
    for _ in 0..calls {
        call();
    }
    start.elapsed().as_secs_f64() * 1e9 / f64::from(calls)
}

fn table(rows: &mut [Row], effort: Effort) -> String {
    let mut text = format!(
        "Nanoseconds for a call, median of {} batches of {} calls\n\n\
         {:22}  {:>9}  {:>9}  {:>15}\n",
        effort.rounds, effort.calls, "", "library", "plain", "library / plain"
    );
    let (mut against_plain, mut against_small) = (0.0_f64, 0.0_f64);
    for pair in rows.chunks_mut(SIZES.len()) {
        let mut times = Vec::new();
        for row in pair {
            let (library, plain) = (median(&mut row.library), median(&mut row.plain));
            let ratio = library / plain;
            text.push_str(&format!("{}  {library:9.1}  {plain:9.1}  {ratio:15.2}\n", row.title));
            against_plain = against_plain.max(ratio);
            times.push(library);
        }
        against_small = against_small.max(times[1] / times[0]);
    }
    text.push_str(&format!("\nlargest ratio library / plain: {against_plain:.2}\n"));
    text.push_str(&format!("largest ratio of the library in 16 MiB / 64 KiB: {against_small:.2}\n"));
    text
}

fn median(times: &mut [f64]) -> f64 {
    times.sort_by(f64::total_cmp);
    times[times.len() / 2]
}
