//! The fixed calls of every file of calls against values worked out by hand from document 01, with the keys as document
//! 02, R-13 has them and "expanded" as R-3 has it.
//!
//! Set-up (see `setup.rs`): 16 KiB, PSW key zero, DAT off, instruction at 1000, operand at 2000, MICBLOK at 400,
//! ECBLOK at 500, virtual PSW at 600. Virtual register r is the word A0B0C0D0 + r times 01010101.

mod expanded;
#[path = "../common/expected.rs"]
mod expected;
mod figure_10;
mod figure_6;
mod figure_9;
mod figures_13_14;
mod figures_15_to_18;
mod figures_7_11;
mod impostors;
mod key_steps;
mod low_addresses;
mod lra_address;
mod lra_formats;
mod lra_steps;
mod mask_bits;
mod order;
mod other_codes;
mod own_block;
mod second_halfword;

use std::collections::{BTreeMap, BTreeSet};

use expected::Expected;
use second::call::changes;
use second::fixed::{
    self, figures, impostor_lists, key_figures, lra_addresses, lra_figure, lra_formats, own_blocks, Field,
    FixedList,
};
use second::{Call, Guest, ReferenceKind};

#[test]
fn figures_give_what_the_paper_says() {
    let mut expectations = figures_13_14::figure_13();
    expectations.extend(figures_13_14::figure_14());
    expectations.extend(figures_15_to_18::figure_15());
    expectations.extend(figures_15_to_18::figure_16());
    expectations.extend(figures_15_to_18::figure_17());
    expectations.extend(figures_15_to_18::figure_18());
    check(&figures(), &expectations);
}

#[test]
fn figures_of_the_key_instructions_give_what_the_papers_say() {
    let mut expectations = figure_6::figure_6();
    expectations.extend(figures_7_11::figure_7());
    expectations.extend(figure_10::figure_10());
    expectations.extend(figures_7_11::figure_11());
    check(&key_figures(), &expectations);
}

#[test]
fn figure_of_lra_gives_what_the_papers_say() {
    check(&lra_figure(), &figure_9::figure_9());
}

#[test]
fn condition_codes_of_lra_in_every_format() {
    check(&lra_formats(), &lra_formats::lra_formats());
}

#[test]
fn addresses_of_lra_give_what_the_papers_say() {
    check(&lra_addresses(), &lra_address::lra_addresses());
}

#[test]
fn fetches_in_the_page_s_own_block_give_what_the_papers_say() {
    check(&own_blocks(), &own_block::own_block());
}

#[test]
fn impostor_lists_give_what_the_paper_says() {
    check(&impostor_lists(), &impostors::impostors());
}

/// Every call once, in the order of the expectations.
fn check(lists: &[FixedList], expectations: &[Expected]) {
    let mut expectations = expectations.iter();
    for list in lists {
        let (mut storage, mut keys) = (list.image.storage(), list.image.key_bytes());
        for call in &list.calls {
            let expected = expectations.next().expect("as many expectations as calls");
            assert_eq!((call.mnemonic(), call.case.as_str()), expected.name);
            let (storage_before, keys_before) = (storage.clone(), keys.clone());
            let answer = call.request.make(&mut storage, &mut keys);
            let ending = answer.ending;
            let given = (ending.number(), ending.code_or_step(), ending.logical_address());
            assert_eq!(given, expected.ending, "{:?}", expected.name);
            assert_eq!(answer.count(), expected.count, "{:?}", expected.name);
            assert_eq!(changes(&storage_before, &storage), expected.bytes, "{:?}", expected.name);
            assert_eq!(changes(&keys_before, &keys), expected.keys, "{:?}", expected.name);
            let mut record = expected.set.in_record(call.request.guest);
            record.psw_32_63 = expected.next;
            assert_eq!(answer.guest, record, "{:?}", expected.name);
        }
    }
    assert_eq!(expectations.count(), 0);
}

/// And no two calls have the same instruction and case.
#[test]
fn every_case_fits_in_a_comment() {
    let mut names = BTreeSet::new();
    for list in fixed::all().into_iter().flat_map(|(_, lists)| lists) {
        for call in &list.calls {
            let name = format!("{} {}", call.mnemonic(), call.case);
            assert!(name.is_ascii() && name.len() <= 77, "{name}");
            assert!(names.insert(name.clone()), "{name}");
        }
    }
}

/// Ending, count, bytes stored, keys set and the record handed back.
type Outcome = ((u32, u32), usize, BTreeMap<u32, u8>, BTreeMap<u32, u8>, Guest);

fn outcome(call: &Call) -> Outcome {
    let (mut storage, mut keys) = (call.image.storage(), call.image.key_bytes());
    let answer = call.request.make(&mut storage, &mut keys);
    let named = |kind: ReferenceKind| answer.references.iter().filter(move |entry| entry.kind == kind);
    let stored = named(ReferenceKind::Store).flat_map(|entry| &entry.bytes);
    let set = named(ReferenceKind::KeySet).filter_map(|entry| entry.key);
    (
        (answer.ending.number(), answer.ending.code_or_step()),
        answer.count(),
        stored.map(|&byte| (byte, storage[byte as usize])).collect(),
        set.map(|key| (key, keys[key as usize])).collect(),
        answer.guest,
    )
}

/// The call as a program makes it that looks for the field `shift` bytes further on.
fn looked_for_elsewhere(call: &Call, field: Field, shift: u32) -> Call {
    let mut moved = call.clone();
    for offset in 0..field.length {
        let there = call.image.byte((field.address + offset).wrapping_add(shift));
        moved.image.put(field.address + offset, &[there]);
    }
    moved
}

#[test]
fn a_field_looked_for_elsewhere_gives_something_else() {
    let mut fields = 0;
    for list in figures().into_iter().chain(key_figures()).chain(lra_figure()) {
        let call = Call { image: list.image.clone(), request: list.calls[0].request };
        let right = outcome(&call);
        for field in list.fields {
            fields += 1;
            for shift in [1, 2, 4, 8].into_iter().flat_map(|shift: u32| [shift, shift.wrapping_neg()]) {
                let wrong = outcome(&looked_for_elsewhere(&call, field, shift));
                assert_ne!(right, wrong, "{} {} {}", list.calls[0].case, field.name, shift as i32);
            }
        }
    }
    assert!(fields > 640, "{fields}");
}
