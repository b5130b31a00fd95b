//! Damaged files of calls, with what a program that reads them must print. How each is damaged, and where and
//! why the reader stops, stands in the tables of `cases`; nothing here reads a file of calls.

mod base;
mod cases;

use crate::checksum::Checksum;
use base::Base;

pub use cases::{all, Message};

/// One change to the lines of the base file. Lines are counted from 1, columns from 0.
#[derive(Clone, Copy, Debug)]
pub enum Edit {
    /// Characters in place of those from a column on.
    Put(usize, usize, &'static str),
    /// Another hexadecimal digit in place of the one in a column.
    Digit(usize, usize),
    /// More characters before a column.
    Add(usize, usize, &'static str),
    /// Some characters fewer from a column on.
    Drop(usize, usize, usize),
    /// A new line before a line.
    Line(usize, &'static str),
    /// Lines left out, from the first to the last.
    Without(usize, usize),
    /// The file ends after so many characters of a line.
    Cut(usize, usize),
    /// Text after the last line.
    After(&'static str),
}

/// One damaged file.
pub struct Case {
    pub name: &'static str,
    pub edits: &'static [Edit],
    /// Checksums are put right after the edits, so that something else is wrong.
    pub sums_right: bool,
    /// The line at which the reader stops, and why.
    pub stopped: (usize, Message),
}

impl Case {
    /// The file, and what is printed for it.
    pub fn texts(&self) -> (String, String) {
        let base = Base::new();
        let mut lines = base.lines;
        for edit in self.edits {
            apply(&mut lines, *edit);
        }
        if self.sums_right {
            put_sums(&mut lines);
        }
        let (stop, message) = self.stopped;
        let mut answers = base.answers.iter();
        let mut printed = String::new();
        for line in lines.iter().take(stop - 1) {
            match line.as_bytes().first() {
                Some(b'#') => printed.push_str(line),
                Some(b'a') => printed.extend(answers.next().map(|answer| format!("{answer}\n"))),
                // The number of calls is printed only if nothing follows the end.
                _ => {}
            }
        }
        printed.push_str(&format!("stopped at line {stop}: {}\n", message.text()));
        (lines.concat(), printed)
    }
}

/// Each line has its line feed.
fn apply(lines: &mut Vec<String>, edit: Edit) {
    match edit {
        Edit::Put(line, column, text) => lines[line - 1].replace_range(column..column + text.len(), text),
        Edit::Digit(line, column) => {
            let digit = u8::from_str_radix(&lines[line - 1][column..=column], 16).unwrap_or(0) ^ 1;
            lines[line - 1].replace_range(column..=column, &format!("{digit:x}"));
        }
        Edit::Add(line, column, text) => lines[line - 1].insert_str(column, text),
        Edit::Drop(line, column, length) => lines[line - 1].replace_range(column..column + length, ""),
        Edit::Line(line, text) => lines.insert(line - 1, format!("{text}\n")),
        Edit::Without(first, last) => drop(lines.drain(first - 1..last)),
        Edit::Cut(line, length) => {
            lines.truncate(line);
            lines[line - 1].truncate(length);
        }
        Edit::After(text) => lines.push(text.into()),
    }
}

/// The checksum at the end of each `a` and `e` line.
fn put_sums(lines: &mut [String]) {
    let mut sum = Checksum::default();
    for line in lines {
        if line.starts_with(['a', 'e']) {
            let summed = line.len() - " cccccccc\n".len();
            sum.add(&line.as_bytes()[..summed]);
            *line = format!("{} {:08x}\n", &line[..summed], sum.value());
            sum = Checksum::default();
        } else {
            sum.add(line.as_bytes());
        }
    }
}
