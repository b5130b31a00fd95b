//! A file of calls, and what a program that reads it must print; the form is that of docs/VECTORS.md.

use std::collections::BTreeMap;
use std::fmt::Write;

use crate::attempt::Answer;
use crate::call::{Request, StorageImage};
use crate::checksum::Checksum;
use crate::guest::Guest;

/// Characters of a comment besides `#` and the line feed.
pub const COMMENT_WIDTH: usize = 78;

/// The two texts under construction. Each call is made as it is written.
#[derive(Default)]
pub struct CallFile {
    pub stdin: String,
    pub stdout: String,
    pub calls: u32,
    /// Checksum of all characters after the last `a` line.
    sum: Checksum,
    record: Option<Guest>,
    pub storage: Vec<u8>,
    pub keys: Vec<u8>,
}

impl CallFile {
    /// A comment, cut to its width.
    pub fn comment(&mut self, text: &str) {
        let line = format!("#{:<COMMENT_WIDTH$.COMMENT_WIDTH$}", format!(" {text}"));
        self.line(&line);
        self.stdout.push_str(&line);
        self.stdout.push('\n');
    }

    /// A new storage with what the image holds.
    pub fn storage(&mut self, image: &StorageImage) {
        self.line(&format!("s {:08x} {:08x}", image.storage_size, image.key_count));
        self.items(['w', 'b'], image.storage_size, &image.bytes);
        self.items(['q', 'k'], image.key_count, &image.keys);
        self.storage = image.storage();
        self.keys = image.key_bytes();
    }

    /// Aligned groups of four of which any is not zero, and what is left after the last whole group.
    fn items(&mut self, [group, single]: [char; 2], size: usize, values: &BTreeMap<u32, u8>) {
        let value = |place: u32| values.get(&place).copied().unwrap_or(0);
        let mut last_group = None;
        for (&place, &byte) in values.iter().filter(|(&place, _)| (place as usize) < size) {
            let start = place - place % 4;
            if start as usize + 4 > size {
                self.line(&format!("{single} {place:06x} {byte:02x}"));
            } else if last_group != Some(start) {
                let word = u32::from_be_bytes([0, 1, 2, 3].map(|offset| value(start + offset)));
                self.line(&format!("{group} {start:06x} {word:08x}"));
                last_group = Some(start);
            }
        }
    }

    /// The record, if it is not the one last given, and the call; what it leaves stays for the next.
    pub fn call(&mut self, request: &Request) -> Answer {
        if self.record != Some(request.guest) {
            let words: String = record_words(&request.guest).map(|word| format!(" {word:08x}")).concat();
            self.line(&format!("r{words}"));
            self.record = Some(request.guest);
        }
        let flag = u8::from(request.expanded);
        self.summed(&format!("a {:04x} {flag}", request.first_halfword));
        self.calls += 1;
        let answer = request.make(&mut self.storage, &mut self.keys);
        self.answer(&answer);
        answer
    }

    fn answer(&mut self, answer: &Answer) {
        let ending = answer.ending;
        let mut sum = Checksum::default();
        sum.add(&self.storage);
        sum.add(&self.keys);
        for word in record_words(&answer.guest) {
            sum.add(&word.to_be_bytes());
        }
        let _ = writeln!(
            self.stdout,
            "{} {} {} {} {:06x} {:06x} {:08x}",
            self.calls,
            ending.number(),
            ending.code_or_step(),
            answer.count(),
            ending.logical_address(),
            answer.guest.instruction_address(),
            sum.value(),
        );
    }

    pub fn end(&mut self) {
        self.summed(&format!("e {:08x}", self.calls));
        let _ = writeln!(self.stdout, "{} calls", self.calls);
    }

    fn line(&mut self, line: &str) {
        self.sum.add(line.as_bytes());
        self.sum.add(b"\n");
        self.stdin.push_str(line);
        self.stdin.push('\n');
    }

    /// A line that ends with the checksum of all that stands before it since the last `a` line.
    fn summed(&mut self, line: &str) {
        self.sum.add(line.as_bytes());
        let _ = writeln!(self.stdin, "{line} {:08x}", self.sum.value());
        self.sum = Checksum::default();
    }
}

/// PSW bits 0-31 and 32-63, general registers 0 to 15, control registers 0, 1 and 6.
pub fn record_words(guest: &Guest) -> [u32; 21] {
    let mut words = [0; 21];
    words[0] = guest.psw_0_31;
    words[1] = guest.psw_32_63;
    words[2..18].copy_from_slice(&guest.general_registers);
    words[18..].copy_from_slice(&[
        guest.control_register_0,
        guest.control_register_1,
        guest.control_register_6,
    ]);
    words
}
