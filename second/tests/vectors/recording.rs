//! What the calls of the stored set put to the test of reference and change recording (document 02, R-13).

use std::collections::{BTreeMap, BTreeSet};

use second::{Answer, Reference, ReferenceKind};

use crate::reader::ReadCall;
use crate::stored_set_read;

/// How often something was found, by name.
#[derive(Default)]
pub struct RecordingTally(BTreeMap<String, usize>);

/// The blocks that an entry reads or stores in.
fn blocks(entry: &Reference) -> BTreeSet<u32> {
    entry.bytes.iter().map(|byte| byte / 2_048).collect()
}

fn name(entry: &Reference) -> &'static str {
    match (entry.kind, entry.bytes.len()) {
        (ReferenceKind::VirtualRegister, _) => "virtual register",
        (ReferenceKind::ControlField, 2) => "virtual PSW",
        (ReferenceKind::ControlField, _) => "swap word",
        (ReferenceKind::Store, _) => "stored swap word",
        _ => "other",
    }
}

impl RecordingTally {
    fn found(&mut self, name: impl Into<String>) {
        *self.0.entry(name.into()).or_default() += 1;
    }

    fn times(&self, name: &str) -> usize {
        self.0.get(name).copied().unwrap_or(0)
    }

    pub fn add(&mut self, call: &ReadCall, answer: &Answer) {
        let right_bits = |number: u32| call.keys[number as usize] & 0x07;
        let mut recorded = false;
        for entry in answer.references.iter().filter(|entry| !entry.bytes.is_empty()) {
            let access = if entry.kind == ReferenceKind::Store { "store" } else { "fetch" };
            for number in blocks(entry) {
                self.found(format!("{access}, key bits {:03b}", right_bits(number)));
                recorded |= right_bits(number) & 0x04 == 0;
            }
            if blocks(entry).len() == 2 {
                self.found(format!("{} across", name(entry)));
            }
        }
        let number = answer.ending.number();
        if recorded && number != 0 {
            self.found(format!("bits kept after ending {number}"));
        }
        self.add_key_read(call, answer);
        self.add_store_test(call, answer);
    }

    /// SSK step 11 and RRB step 12: whether its fetches have recorded in the block whose key it reads, and whether it
    /// then stores in it. Of ISK see `key_calls`.
    fn add_key_read(&mut self, call: &ReadCall, answer: &Answer) {
        let entries = &answer.references;
        let Some(set) = entries.iter().position(|entry| entry.kind == ReferenceKind::KeySet) else {
            return;
        };
        let number = entries[set].key.expect("a key entry names a key");
        let touches = |part: &[Reference]| part.iter().any(|entry| blocks(entry).contains(&number));
        let mnemonic = if call.request.first_halfword == 0xB213 { "RRB" } else { "SSK" };
        if touches(&entries[..set]) && call.keys[number as usize] & 0x04 == 0 {
            self.found(format!("{mnemonic}: key read with a bit that its own fetch recorded"));
        }
        if touches(&entries[set..]) {
            self.found(format!("{mnemonic}: key set, then stored in"));
        }
        let halfword = |entry: &&Reference| entry.kind == ReferenceKind::InstructionHalfword;
        if entries.iter().filter(halfword).any(|entry| blocks(entry).contains(&number)) {
            self.found("RRB: second halfword in the page's block");
        }
    }

    /// A block with reference bit zero that a store test has passed before a later word ends the call.
    fn add_store_test(&mut self, call: &ReadCall, answer: &Answer) {
        let (halfword, ended) = (call.request.first_halfword >> 8, answer.ending.number() == 1);
        let stored = answer.references.iter().any(|entry| entry.kind == ReferenceKind::Store);
        // After the second halfword's fetch.
        let tests = answer.references.iter().rev().take_while(|entry| entry.bytes.len() != 2);
        let passed = tests.filter(|entry| entry.kind == ReferenceKind::KeyConsulted);
        if halfword == 0xB6 && ended && !stored {
            let zero = |number: u32| call.keys[number as usize] & 0x04 == 0;
            let read = |number| answer.references.iter().any(|entry| blocks(entry).contains(&number));
            if passed.filter_map(|entry| entry.key).any(|number| zero(number) && !read(number)) {
                self.found("store test without a record");
            }
        }
    }
}

#[test]
fn the_stored_set_has_every_combination_of_right_bits() {
    let tally = &stored_set_read().recording;
    for bits in 0..8 {
        for access in ["fetch", "store"] {
            let name = format!("{access}, key bits {bits:03b}");
            assert!(tally.times(&name) > 500, "{name}: {}", tally.times(&name));
        }
    }
}

#[test]
fn the_stored_set_has_items_across_boundaries() {
    let tally = &stored_set_read().recording;
    for name in
        ["virtual register across", "virtual PSW across", "swap word across", "stored swap word across"]
    {
        assert!(tally.times(name) > 40, "{name}: {}", tally.times(name));
    }
    assert_eq!(tally.times("other across"), 0);
}

#[test]
fn the_stored_set_shows_when_bits_are_recorded() {
    let tally = &stored_set_read().recording;
    for (name, least) in [
        ("bits kept after ending 1", 300),
        ("bits kept after ending 2", 10),
        ("bits kept after ending 3", 50),
        ("SSK: key read with a bit that its own fetch recorded", 50),
        ("SSK: key set, then stored in", 50),
        ("RRB: key read with a bit that its own fetch recorded", 50),
        ("RRB: key set, then stored in", 50),
        ("RRB: second halfword in the page's block", 50),
        ("store test without a record", 10),
    ] {
        assert!(tally.times(name) > least, "{name}: {}", tally.times(name));
    }
}
