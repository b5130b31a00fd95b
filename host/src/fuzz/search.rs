//! The groups of calls, by two threads. Whatever their speed, the call that is reported is the first that
//! differs.

use std::sync::atomic::{AtomicU64, Ordering};
use std::thread;

use super::compare::{Alarm, Comparer};
use super::difference;
use super::plan::Plan;
use super::tally::Tally;
use crate::command::Failure;
use crate::sides::Functions;

const THREADS: usize = 2;

/// What is shared by the threads.
struct Shared<'a> {
    plan: &'a Plan,
    functions: Functions,
    /// The next group to take. Groups are taken in order, and each that is taken is finished.
    next: AtomicU64,
    /// The first group in which a difference was found so far.
    first_differing: AtomicU64,
}

/// What a thread found.
#[derive(Default)]
struct Part {
    tally: Tally,
    /// A group, and the report on its first call that differs.
    difference: Option<(u64, String)>,
}

/// Make all calls of the plan by the library and by the second program, and write them down; gives the tally,
/// and the report on the first call that differs.
pub fn search(plan: &Plan, functions: Functions) -> Result<(Tally, Option<String>), Failure> {
    let (next, first_differing) = (AtomicU64::new(0), AtomicU64::new(u64::MAX));
    let shared = Shared { plan, functions, next, first_differing };
    let parts = thread::scope(|scope| {
        let threads: Vec<_> = (0..THREADS).map(|_| scope.spawn(|| work(&shared))).collect();
        threads.into_iter().map(|thread| thread.join()).collect::<Result<Vec<Part>, _>>()
    });
    let parts = parts.map_err(|_| Failure::Error("a thread broke off, for the reason given above".into()))?;
    let mut tally = Tally::default();
    let mut differences = Vec::new();
    for part in parts {
        tally.join(part.tally);
        differences.extend(part.difference);
    }
    differences.sort();
    Ok((tally, differences.into_iter().next().map(|(_, text)| text)))
}

fn work(shared: &Shared) -> Part {
    let Shared { plan, functions, next, first_differing } = shared;
    let mut comparer = Comparer::new(plan, *functions, false);
    let mut difference = None;
    loop {
        let group = next.fetch_add(1, Ordering::Relaxed);
        if group >= plan.groups() || group > first_differing.load(Ordering::Relaxed) {
            break;
        }
        if run_group(plan, group, &mut comparer).is_err() {
            first_differing.fetch_min(group, Ordering::Relaxed);
            difference = Some((group, first_difference(plan, *functions, group)));
            break;
        }
    }
    Part { tally: comparer.tally, difference }
}

fn run_group(plan: &Plan, group: u64, comparer: &mut Comparer) -> Result<(), Alarm> {
    comparer.begin();
    for list in plan.lists(group) {
        comparer.list(&list)?;
    }
    comparer.end()
}

/// Make the calls of a group anew and compare everything after each; the report on the first that differs.
fn first_difference(plan: &Plan, functions: Functions, group: u64) -> String {
    let mut comparer = Comparer::new(plan, functions, true);
    comparer.begin();
    for list in plan.lists(group) {
        match comparer.list(&list) {
            Ok(()) => {}
            Err(Alarm::Differs(index)) => return difference::of_call(plan, &list, index, &comparer),
            Err(Alarm::Left) => return difference::of_list(plan, &list),
        }
    }
    difference::of_group(plan, group)
}

#[cfg(test)]
mod tests {
    use super::*;
    use crate::sides::{counted, Outcome, Side, LIBRARY};
    use second::generate::Chain;
    use second::Request;

    /// Three groups of calls, in storage of up to 1 MiB.
    const PLAN: Plan = Plan { seed: 16, calls: 9_000, largest: Some(0x10_0000) };

    /// The call at which a faulty side is found out, with the report; `None` if it isn't.
    fn found(side: Side) -> Option<(u64, String)> {
        let text = search(&PLAN, Functions { attempt: side, ..LIBRARY }).expect("no thread broke off").1?;
        let number = text.strip_prefix("call ").and_then(|text| text.split(' ').next());
        Some((number.and_then(|number| number.parse().ok()).expect("a number"), text))
    }

    /// The first call in storage of some size for which a condition holds.
    fn first(condition: impl Fn(&Request, usize) -> bool) -> u64 {
        let mut calls = (0..PLAN.groups()).flat_map(|group| PLAN.lists(group)).flat_map(|list| {
            let Chain { image, requests } = list.chain;
            (list.first..).zip(requests).map(move |(index, request)| (index, request, image.storage_size))
        });
        calls.find(|(_, request, size)| condition(request, *size)).expect("there is one").0
    }

    /// One request in this many.
    fn is_one_in(many: u32, request: &Request) -> bool {
        request.guest.general_registers[7] % many == 3
    }

    #[test]
    fn the_same_program_does_not_differ() {
        assert_eq!(found(counted), None);
    }

    #[test]
    fn another_count_or_record() {
        fn count(request: &Request, storage: &mut [u8], keys: &mut [u8]) -> Outcome {
            let mut outcome = counted(request, storage, keys);
            outcome.answer.count += u16::from(is_one_in(3_000, request));
            outcome
        }
        fn record(request: &Request, storage: &mut [u8], keys: &mut [u8]) -> Outcome {
            let mut outcome = counted(request, storage, keys);
            outcome.record[17] ^= u32::from(is_one_in(3_000, request));
            outcome
        }
        let expected = first(|request, _| is_one_in(3_000, request));
        assert!(expected >= 4_096, "in a later group");
        assert!(found(count).is_some_and(|(call, text)| call == expected && text.contains("count ")));
        let named = "\nrecord general register 15: library ";
        assert!(found(record).is_some_and(|(call, text)| call == expected && text.contains(named)));
    }

    #[test]
    fn a_write_far_from_all_that_the_call_names() {
        fn stray(request: &Request, storage: &mut [u8], keys: &mut [u8]) -> Outcome {
            let outcome = counted(request, storage, keys);
            if storage.len() == 0x10_0000 && is_one_in(50, request) {
                storage[0xA_BCDE] ^= 0x55;
            }
            outcome
        }
        let expected = first(|request, size| size == 0x10_0000 && is_one_in(50, request));
        let (call, text) = found(stray).expect("a difference");
        assert_eq!(call, expected);
        assert!(text.ends_with("\nstorage 0ABCDE: library 55, second program 00\n"), "{text}");
    }

    #[test]
    fn a_write_in_small_storage_and_a_key() {
        fn stray(request: &Request, storage: &mut [u8], keys: &mut [u8]) -> Outcome {
            let outcome = counted(request, storage, keys);
            if storage.len() == 2_048 && is_one_in(50, request) {
                storage[2_047] ^= 0x80;
            }
            outcome
        }
        fn key(request: &Request, storage: &mut [u8], keys: &mut [u8]) -> Outcome {
            let outcome = counted(request, storage, keys);
            if storage.len() > 0x8_0000 && keys.len() == 512 && is_one_in(50, request) {
                keys[511] ^= 1;
            }
            outcome
        }
        let expected = first(|request, size| size == 2_048 && is_one_in(50, request));
        assert!(
            found(stray).is_some_and(|(call, text)| call == expected && text.contains("\nstorage 0007FF: "))
        );
        let (_, text) = found(key).expect("a difference");
        let last = text.lines().last().expect("a line");
        let (library, second) = last
            .strip_prefix("keys 0001FF: library ")
            .and_then(|keys| keys.split_once(", second program "))
            .expect("the key");
        let number = |digits| u8::from_str_radix(digits, 16).expect("a key");
        assert_eq!(number(library) ^ number(second), 1);
    }

    #[test]
    fn what_is_recorded_in_the_keys() {
        /// Whatever the ending, no change bit that wasn't there.
        fn no_change(request: &Request, storage: &mut [u8], keys: &mut [u8]) -> Outcome {
            let before = keys.to_vec();
            let outcome = counted(request, storage, keys);
            keys.iter_mut().zip(before).for_each(|(key, old)| *key &= !0x02 | old);
            outcome
        }
        /// What was recorded before any ending but completion doesn't stay.
        fn forgets(request: &Request, storage: &mut [u8], keys: &mut [u8]) -> Outcome {
            let before = keys.to_vec();
            let outcome = counted(request, storage, keys);
            if !outcome.answer.completed() {
                keys.copy_from_slice(&before);
            }
            outcome
        }
        for side in [no_change as Side, forgets] {
            let (_, text) = found(side).expect("a difference");
            let differences = text.split("\nsecond program: ").nth(1).expect("both answers").lines().skip(1);
            let differences: Vec<&str> = differences.collect();
            assert!(
                !differences.is_empty() && differences.iter().all(|line| line.starts_with("keys ")),
                "{text}"
            );
        }
    }
}
