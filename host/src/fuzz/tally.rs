//! How many calls ended with each ending, and what came of their writing calls.

use std::collections::BTreeMap;

use crate::answer::Answer;
use crate::words;
use crate::written::WritingEnding;

/// The endings of writing calls, in words.
const WRITING_ENDINGS: [(WritingEnding, &str); 4] = [
    (WritingEnding::WentIn, "went in"),
    (WritingEnding::TurnedAway, "turned away"),
    (WritingEnding::Refused(20), "refused by 20: another trailer, or none whole in the buffer"),
    (WritingEnding::Refused(21), "refused by 21: buffer under 16 bytes"),
];

#[derive(Default)]
pub struct Tally {
    /// Calls by the number of the ending and, for interruptions, the code.
    calls: BTreeMap<(u8, u16), u64>,
    writing_calls: BTreeMap<WritingEnding, u64>,
}

impl Tally {
    pub fn add(&mut self, answer: Answer) {
        let code = if answer.ending == 1 { answer.code_or_step } else { 0 };
        *self.calls.entry((answer.ending, code)).or_default() += 1;
    }

    pub fn add_writing(&mut self, ending: WritingEnding) {
        *self.writing_calls.entry(ending).or_default() += 1;
    }

    pub fn join(&mut self, other: Tally) {
        join(&mut self.calls, other.calls);
        join(&mut self.writing_calls, other.writing_calls);
    }

    pub fn text(&self) -> String {
        let line = |(&(ending, code), &calls)| line(calls, &words::kind(ending, code));
        let calls: String = self.calls.iter().map(line).collect();
        format!("{:>12}  ended with\n{calls}{}", "calls", self.writing_text())
    }

    fn writing_text(&self) -> String {
        let calls = |ending| self.writing_calls.get(ending).copied().unwrap_or(0);
        let lines: String =
            WRITING_ENDINGS.iter().map(|(ending, words)| line(calls(ending), words)).collect();
        format!("{:>12}  in the trails\n{lines}", "calls")
    }
}

fn line(calls: u64, words: &str) -> String {
    format!("{calls:>12}  {words}\n")
}

fn join<K: Ord>(calls: &mut BTreeMap<K, u64>, others: BTreeMap<K, u64>) {
    for (kind, more) in others {
        *calls.entry(kind).or_default() += more;
    }
}
