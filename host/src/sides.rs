//! One call, by the library and by the second program.

use second::{CountedAnswer, Request, StorageImage};

use crate::answer::Answer;
use crate::changes::{self, State};
use crate::library::{self, MadeCall};
use crate::record::{self, Record};
use crate::words;
use crate::written::Written;

/// What comes back from a call: the numbers, and the record handed back.
#[derive(Clone, Copy, Debug, PartialEq, Eq)]
pub struct Outcome {
    pub answer: Answer,
    pub record: Record,
}

/// The call made by the proved library.
pub fn library(request: &Request, storage: &mut [u8], keys: &mut [u8]) -> Outcome {
    let mut record = record::of_guest(&request.guest);
    let result = library::attempt(storage, keys, &mut record, request.first_halfword, request.expanded);
    Outcome { answer: Answer::unpack(result), record }
}

/// The call made by the second program, without its list of references.
pub fn counted(request: &Request, storage: &mut [u8], keys: &mut [u8]) -> Outcome {
    Outcome::of_counted(&counted_answer(request, storage, keys))
}

/// The same, as the second program gives it.
pub fn counted_answer(request: &Request, storage: &mut [u8], keys: &mut [u8]) -> CountedAnswer {
    let Request { guest, first_halfword, expanded } = request;
    second::attempt_counted(storage, keys, guest, *first_halfword, *expanded)
}

impl Outcome {
    pub fn of_counted(answer: &CountedAnswer) -> Outcome {
        Outcome {
            answer: Answer::of_second(answer.ending, answer.count as usize),
            record: record::of_guest(&answer.guest),
        }
    }
}

/// The call made by the second program, with its list of references.
pub fn listed(request: &Request, storage: &mut [u8], keys: &mut [u8]) -> Outcome {
    let answer = request.make(storage, keys);
    Outcome {
        answer: Answer::of_second(answer.ending, answer.count()),
        record: record::of_guest(&answer.guest),
    }
}

/// A way to make a call: `library`, `counted` or `listed`.
pub type Side = fn(&Request, &mut [u8], &mut [u8]) -> Outcome;

/// What the library can do; in tests, what is to be told from the second program.
#[derive(Clone, Copy)]
pub struct Functions {
    pub attempt: Side,
    pub trail_start: fn(&mut [u8]) -> Written,
    pub trail_write: fn(&mut [u8], u32, &MadeCall) -> Written,
}

pub const LIBRARY: Functions =
    Functions { attempt: library, trail_start: library::trail_start, trail_write: library::trail_write };

/// What a call gives and leaves on storage of its own.
pub struct Made {
    pub answer: Answer,
    pub after: State,
}

/// The image and the record before a call.
pub fn before(image: &StorageImage, request: &Request) -> State {
    State { storage: image.storage(), keys: image.key_bytes(), record: record::of_guest(&request.guest) }
}

/// Make a call on a fresh copy of its image.
pub fn make(side: Side, image: &StorageImage, request: &Request) -> Made {
    let mut after = before(image, request);
    let outcome = side(request, &mut after.storage, &mut after.keys);
    after.record = outcome.record;
    Made { answer: outcome.answer, after }
}

/// How the library's call differs from the second program's, line by line; none if it doesn't.
pub fn differences(library: &Made, second: &Made, first_halfword: u16) -> Vec<String> {
    let mut lines = Vec::new();
    if library.answer != second.answer {
        let [library, second] = [library, second].map(|made| numbers(made.answer, first_halfword));
        lines.push(told_apart(&library, &second));
    }
    lines.extend(changes::record_lines(&library.after.record, &second.after.record, told_apart));
    lines.extend(changes::place_lines(&library.after, &second.after, told_apart));
    lines
}

/// Two values that should be the same.
pub fn told_apart(library: &str, second: &str) -> String {
    format!("library {library}, second program {second}")
}

/// All four numbers of an answer, also those that should be zero, and the ending in words.
pub fn numbers(answer: Answer, first_halfword: u16) -> String {
    let Answer { ending, code_or_step, count, logical_address } = answer;
    let words = words::ending(answer, first_halfword);
    format!(
        "ending {ending}, code or step {code_or_step}, count {count}, address {logical_address:08X} ({words})"
    )
}

/// The count in words: `1 reference`.
pub fn references(count: u16) -> String {
    words::counted(count.into(), "reference")
}
