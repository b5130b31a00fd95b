//! `attempt_counted` beside `attempt`: the same ending, count, record, storage and keys.

use std::collections::BTreeSet;

use second::fixed::{self, FixedList};
use second::generate::{generate, generate_chain, generate_of_size, LARGEST_LARGE, MIB};
use second::{attempt_counted, edges, Request, StorageImage};

/// Makes the calls of a list in both forms, each on a storage of its own; gives the numbers of the endings.
fn compare<'a>(image: &StorageImage, requests: impl IntoIterator<Item = &'a Request>) -> Vec<u32> {
    let (mut storage, mut keys) = (image.storage(), image.key_bytes());
    let (mut counted_storage, mut counted_keys) = (storage.clone(), keys.clone());
    let mut endings = Vec::new();
    for request in requests {
        let answer = request.make(&mut storage, &mut keys);
        let Request { guest, first_halfword, expanded } = request;
        let counted =
            attempt_counted(&mut counted_storage, &mut counted_keys, guest, *first_halfword, *expanded);
        assert_eq!(counted.ending, answer.ending, "{request:?}");
        assert_eq!(counted.count as usize, answer.count(), "{request:?}");
        assert_eq!(counted.guest, answer.guest, "{request:?}");
        assert!(counted_storage == storage && counted_keys == keys, "{request:?}");
        endings.push(answer.ending.number());
    }
    endings
}

#[test]
fn every_edge() {
    let all: Vec<_> = edges::small().into_iter().chain(edges::large()).collect();
    for edge in &all {
        compare(&edge.image, [&edge.request]);
    }
    // 269 in at most 4 MiB, 11 in more.
    assert_eq!(all.len(), 280);
}

#[test]
fn every_fixed_case() {
    let numbers = fixed::all().map(|(_, lists)| {
        let calls =
            |list: &FixedList| compare(&list.image, list.calls.iter().map(|call| &call.request)).len();
        lists.iter().map(calls).sum::<usize>()
    });
    // docs/VECTORS.md; the system mask and the bad calls are one row there.
    assert_eq!(numbers, [88, 238, 38, 224, 64, 66, 79, 76, 94, 11, 60, 72, 88, 58, 23, 17]);
}

#[test]
fn random_calls() {
    let mut reached = BTreeSet::new();
    for index in 0..20_000 {
        let call = generate(21, index);
        reached.extend(compare(&call.image, [&call.request]));
    }
    assert!(reached.into_iter().eq([0, 1, 2, 3, 9, 10, 11, 12, 13]));
}

#[test]
fn random_calls_in_16_mib() {
    for index in 0..200 {
        let call = generate_of_size(22, index, 16 * MIB, LARGEST_LARGE);
        compare(&call.image, [&call.request]);
    }
}

#[test]
fn lists_of_calls() {
    for index in 0..300 {
        let chain = generate_chain(23, index, 6);
        compare(&chain.image, &chain.requests);
    }
}
