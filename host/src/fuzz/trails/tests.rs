//! Starts and writing calls that are wrong, each in one way, are told from the second program's.

use std::collections::HashSet;
use std::sync::OnceLock;

use second::Request;

use crate::fuzz::plan::{Plan, BLOCK};
use crate::fuzz::search::search;
use crate::library::{trail_start, trail_write, MadeCall};
use crate::record;
use crate::sides::{Functions, LIBRARY};
use crate::written::{WritingEnding, Written};

/// Three groups of calls.
const PLAN: Plan = Plan { seed: 16, calls: 9_000, largest: Some(BLOCK) };

/// The call at which a wrong start or writing call is found out, and the lines on the trail.
fn found(functions: Functions) -> (u64, String) {
    let text = search(&PLAN, functions).expect("no thread broke off").1.expect("a difference");
    let (call, report) = text.strip_prefix("call ").and_then(|text| text.split_once(' ')).expect("a call");
    assert!(report.starts_with("of seed 16 differs\n"), "{text}");
    let (_, trail) = report.split_once("\ntrail in a buffer of ").expect("lines on the trail");
    (call.parse().expect("a number"), trail.into())
}

fn found_in_writing(trail_write: fn(&mut [u8], u32, &MadeCall) -> Written) -> (u64, String) {
    found(Functions { trail_write, ..LIBRARY })
}

/// The place of a number of the trailer that stands after so many records, if it is in the buffer.
fn place(buffer: &[u8], held: u32, number: usize) -> Option<usize> {
    let place = 128 * held as usize + 4 * number;
    (place + 4 <= buffer.len()).then_some(place)
}

/// The numbers of a report's lines `library: ` and `second program: `.
fn numbers(trail: &str) -> [&str; 2] {
    ["\nlibrary:        ", "\nsecond program: "].map(|side| {
        let (_, rest) = trail.split_once(side).expect(side);
        rest.split(" (").next().expect("numbers")
    })
}

#[test]
fn the_call_is_named_that_differs() {
    const GENERAL_7: usize = 2 + 7;
    static CHOSEN: OnceLock<u32> = OnceLock::new();
    // A bit that should be zero, between the two numbers.
    fn bit(buffer: &mut [u8], held: u32, call: &MadeCall) -> Written {
        let written = trail_write(buffer, held, call);
        let packed = u64::from(written.refusal()) << 56 | u64::from(written.held());
        let is_chosen = CHOSEN.get() == Some(&call.before[GENERAL_7]);
        Written::unpack(packed | u64::from(is_chosen) << 40)
    }
    let lists = (0..PLAN.groups()).flat_map(|group| PLAN.lists(group));
    let requests = lists.flat_map(|list| (list.first..).zip(list.chain.requests));
    let word = |request: &Request| record::of_guest(&request.guest)[GENERAL_7];
    let calls: Vec<(u64, u32)> = requests.map(|(call, request)| (call, word(&request))).collect();
    // The first in a later group whose word no call before it has.
    let mut before = HashSet::new();
    let is_new = calls.iter().filter(|(_, word)| before.insert(*word));
    let (expected, word) = is_new.copied().find(|(call, _)| *call >= 4_096).expect("a later group");
    CHOSEN.set(word).expect("set once");
    let (call, trail) = found_in_writing(bit);
    assert_eq!(call, expected);
    let [library, second] = numbers(&trail);
    assert_eq!(library, second, "the two numbers are right, the bits are not: {trail}");
}

#[test]
fn the_turned_away_number_wraps() {
    fn wraps(buffer: &mut [u8], held: u32, call: &MadeCall) -> Written {
        let place = place(buffer, held, 2);
        let was_at_ceiling = place.is_some_and(|place| buffer[place..place + 4] == [0xFF; 4]);
        let written = trail_write(buffer, held, call);
        if let (true, WritingEnding::TurnedAway, Some(place)) = (was_at_ceiling, written.ending(held), place)
        {
            buffer[place..place + 4].fill(0);
        }
        written
    }
    let (_, trail) = found_in_writing(wraps);
    assert!(trail.ends_with(": library 00 00 00 00, second program FF FF FF FF\n"), "{trail}");
}

#[test]
fn the_sequence_starts_at_one() {
    fn from_one(buffer: &mut [u8], held: u32, call: &MadeCall) -> Written {
        let written = trail_write(buffer, held, call);
        if written.ending(held) == WritingEnding::WentIn {
            let place = 128 * held as usize;
            buffer[place..place + 4].copy_from_slice(&(held + 1).to_be_bytes());
        }
        written
    }
    let (_, trail) = found_in_writing(from_one);
    assert!(trail.ends_with("\ntrail 000003: library 01, second program 00\n"), "{trail}");
}

#[test]
fn a_refusal_writes() {
    fn writes(buffer: &mut [u8], held: u32, call: &MadeCall) -> Written {
        let written = trail_write(buffer, held, call);
        if let (WritingEnding::Refused(20), Some(last)) = (written.ending(held), buffer.last_mut()) {
            *last ^= 0x80;
        }
        written
    }
    let (_, trail) = found_in_writing(writes);
    assert!(numbers(&trail).iter().all(|numbers| numbers.starts_with("refusal 20, held ")), "{trail}");
}

#[test]
fn a_refusal_hands_back_zero() {
    fn zero(buffer: &mut [u8], held: u32, call: &MadeCall) -> Written {
        match trail_write(buffer, held, call) {
            written if written.refusal() == 0 => written,
            written => Written::unpack(u64::from(written.refusal()) << 56),
        }
    }
    let [library, second] = numbers(&found_in_writing(zero).1).map(String::from);
    assert!(library.ends_with(", held 0") && !second.ends_with(", held 0"), "{library}; {second}");
}

#[test]
fn the_distance_is_taken_modulo_2_to_the_32() {
    // The trailer that the number modulo 2^25 points at is right but for its number, and goes for the right one.
    fn modulo(buffer: &mut [u8], held: u32, call: &MadeCall) -> Written {
        let low = held & 0x01FF_FFFF;
        match place(buffer, low, 1) {
            Some(place) if low != held && buffer[place..place + 4] == held.to_be_bytes() => {
                buffer[place..place + 4].copy_from_slice(&low.to_be_bytes());
                let written = trail_write(buffer, low, call);
                Written::unpack(u64::from(written.held() | held))
            }
            _ => trail_write(buffer, held, call),
        }
    }
    let (_, trail) = found_in_writing(modulo);
    let [library, second] = numbers(&trail);
    assert!(library.starts_with("refusal 0, ") && second.starts_with("refusal 20, "), "{trail}");
}

#[test]
fn a_start_clears_the_buffer() {
    fn clears(buffer: &mut [u8]) -> Written {
        let written = trail_start(buffer);
        buffer.iter_mut().skip(16).for_each(|byte| *byte = 0);
        written
    }
    let (_, trail) = found(Functions { trail_start: clears, ..LIBRARY });
    assert!(
        trail.contains(" bytes: it is started\n") && trail.contains("\ntrail 000010: library 00 "),
        "{trail}"
    );
}
