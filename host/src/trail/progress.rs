//! How far the reading of a large trail has come, on standard error.

use std::io::{stderr, stdout, IsTerminal, Stderr, Write};
use std::time::{Duration, Instant};

use super::form::RECORD_BYTES;
use crate::words::grouped;

/// A file is large from so many bytes on.
const LARGE: u64 = 8 * 1_024 * 1_024;

const INTERVAL: Duration = Duration::from_millis(500);

/// Records between two looks at the clock.
const STRIDE: u64 = 256;

pub struct Progress<W: Write = Stderr> {
    output: W,
    /// Records.
    total: u64,
    form: Form,
}

enum Form {
    Silent,
    /// A line that is rewritten in place, and wiped at the end.
    InPlace {
        last: Instant,
        interval: Duration,
        width: usize,
    },
    /// A line for each tenth, the next of which is this one.
    Lines {
        tenth: u64,
    },
}

impl Progress {
    /// While a file is read and nothing printed.
    pub fn of_reading(length: u64) -> Progress {
        let form = match stderr().is_terminal() {
            _ if length < LARGE => Form::Silent,
            true => Form::InPlace { last: Instant::now(), interval: INTERVAL, width: 0 },
            false => Form::Lines { tenth: 1 },
        };
        Progress { output: stderr(), total: length / RECORD_BYTES, form }
    }

    /// While it is also printed. On a terminal the lines printed show the progress, and another between them
    /// would be in their way.
    pub fn of_printing(length: u64) -> Progress {
        match stdout().is_terminal() {
            true => Progress { output: stderr(), total: 0, form: Form::Silent },
            false => Progress::of_reading(length),
        }
    }
}

impl<W: Write> Progress<W> {
    /// So many records are read. What can't be written on standard error is left unsaid.
    pub fn at(&mut self, records: u64) {
        match &mut self.form {
            Form::Silent => {}
            Form::InPlace { last, interval, width } => {
                if records % STRIDE == 0 && last.elapsed() >= *interval {
                    let line = line(records, self.total);
                    (*last, *width) = (Instant::now(), line.len());
                    let _ = write!(self.output, "\r{line}").and_then(|()| self.output.flush());
                }
            }
            Form::Lines { tenth } => {
                if *tenth < 10 && records * 10 >= self.total * *tenth {
                    *tenth += 1;
                    let _ = writeln!(self.output, "{}", line(records, self.total));
                }
            }
        }
    }
}

impl<W: Write> Drop for Progress<W> {
    fn drop(&mut self) {
        if let Form::InPlace { width: width @ 1.., .. } = self.form {
            let _ = write!(self.output, "\r{:width$}\r", "").and_then(|()| self.output.flush());
        }
    }
}

/// Never shorter than the one before it.
fn line(records: u64, total: u64) -> String {
    let percent = records * 100 / total;
    format!("vma: {percent} %, {} of {} records", grouped(records), grouped(total))
}

#[cfg(test)]
mod tests {
    use super::*;

    /// What is written while the records are read one by one.
    fn written(form: Form, total: u64) -> String {
        let mut output = Vec::new();
        let mut progress = Progress { output: &mut output, total, form };
        (1..=total).for_each(|records| progress.at(records));
        drop(progress);
        String::from_utf8(output).expect("text")
    }

    #[test]
    fn a_line_for_each_tenth() {
        let text = written(Form::Lines { tenth: 1 }, 81_925);
        let lines: Vec<&str> = text.lines().collect();
        assert_eq!(lines.len(), 9);
        assert_eq!(lines[0], "vma: 10 %, 8,193 of 81,925 records");
        assert_eq!(lines[8], "vma: 90 %, 73,733 of 81,925 records");
    }

    #[test]
    fn in_place_and_wiped() {
        let form = |interval| Form::InPlace { last: Instant::now(), interval, width: 0 };
        let text = written(form(Duration::ZERO), 1_024);
        let last = "vma: 100 %, 1,024 of 1,024 records";
        assert!(text.starts_with("\rvma: 25 %, 256 of 1,024 records\rvma: 50 %, 512 of 1,024 records\r"));
        assert!(text.ends_with(&format!("\r{last}\r{}\r", " ".repeat(last.len()))));
        assert_eq!(written(form(Duration::MAX), 1_024), "", "nothing to wipe");
    }

    #[test]
    fn small_files_are_read_without_a_word() {
        assert_eq!(written(Form::Silent, 100_000), "");
        let silent = |length| matches!(Progress::of_reading(length).form, Form::Silent);
        assert!(silent(8_388_607) && !silent(8_388_608));
    }
}
