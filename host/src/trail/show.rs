//! `vma trail show`: the records of a trail file.

use std::ffi::OsString;
use std::io::{stdout, BufWriter, Write};
use std::path::PathBuf;

use super::lines;
use super::progress::Progress;
use super::reader::Trail;
use crate::command::{self, put_once, unknown, unprintable, Action, Command, Failure, Report};

pub const COMMAND: Command = Command { name: "show", help: HELP, action: Action::Run(run) };

const HELP: &str = "usage: vma trail show FILE [--registers]

Prints the records of a trail file, a line for each: sequence number, guest number, instruction with its first
halfword, whether the expanded assist is installed, ending, count of references, address of the instruction
and of the next one. The last line says how many records are held, and how many calls were turned away because
the trail was full. Addresses, halfwords and registers are hex, all other numbers decimal.

  --registers  prints under each record the PSW and the registers, as they were before the call

A trail file is a trail's buffer from its first record up to and with its trailer: 128 times the number of
records plus 16 bytes. One that is damaged is printed up to the record at fault, and a message says what is
wrong, and where; if the trailer is at fault, no record is printed.

Status: 0 no call was turned away; 1 error, or damage; 2 wrong usage; 5 calls were turned away.
";

/// Bytes that are printed at a time.
const BUFFER: usize = 64 * 1_024;

#[derive(Debug, PartialEq, Eq)]
struct Options {
    file: PathBuf,
    registers: bool,
}

fn run(words: &[OsString]) -> Result<Report, Failure> {
    let options = parse(words)?;
    let mut trail = Trail::open(&options.file)?;
    let mut output = BufWriter::with_capacity(BUFFER, stdout().lock());
    let read = print_records(&mut trail, options.registers, &mut output);
    // Also where the reading failed: what was read before is shown before the message.
    let printed = output.flush().map_err(unprintable).and(read);
    match (printed, lines::turned_away(&trail.trailer)) {
        (Ok(()), None) => Ok(report(&trail, command::COMPLETED)),
        (Ok(()), Some(_)) => Ok(report(&trail, command::TURNED_AWAY)),
        (Err(failure), None) => Err(failure),
        (Err(failure), Some(words)) => Err(failure.and(&words)),
    }
}

fn report(trail: &Trail, status: u8) -> Report {
    Report::new(lines::conclusion(&trail.trailer) + "\n", status)
}

fn print_records(trail: &mut Trail, registers: bool, output: &mut impl Write) -> Result<(), Failure> {
    let mut progress = Progress::of_printing(trail.length());
    while let Some(record) = trail.next()? {
        lines::write_record(output, &record).map_err(unprintable)?;
        if registers {
            lines::write_registers(output, &record).map_err(unprintable)?;
        }
        progress.at(u64::from(record.sequence) + 1);
    }
    Ok(())
}

fn parse(words: &[OsString]) -> Result<Options, Failure> {
    let (mut file, mut registers) = (None, None);
    for word in words {
        match word.to_str() {
            Some(option @ "--registers") => put_once(&mut registers, option, ())?,
            Some(option) if option.starts_with('-') => return Err(unknown(word)),
            _ => put_once(&mut file, "FILE", word.into())?,
        }
    }
    let file = file.ok_or_else(|| Failure::Usage("FILE is missing".into()))?;
    Ok(Options { file, registers: registers.is_some() })
}

#[cfg(test)]
mod tests {
    use super::*;

    fn parsed(words: &str) -> Result<Options, Failure> {
        let words: Vec<OsString> = words.split_whitespace().map(OsString::from).collect();
        parse(&words)
    }

    #[test]
    fn a_file_and_an_option_in_any_order() {
        let options = |registers| Ok(Options { file: "t".into(), registers });
        assert_eq!(parsed("t"), options(false));
        assert_eq!(parsed("t --registers"), options(true));
        assert_eq!(parsed("--registers t"), options(true));
    }

    #[test]
    fn what_is_wrong_is_named() {
        for (words, expected) in [
            ("", "FILE is missing"),
            ("--registers", "FILE is missing"),
            ("t u", "FILE is given twice"),
            ("--registers t --registers", "--registers is given twice"),
            ("t -r", "'-r' isn't known here"),
        ] {
            assert_eq!(parsed(words), Err(Failure::Usage(expected.into())), "{words}");
        }
    }
}
