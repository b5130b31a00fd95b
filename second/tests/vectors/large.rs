//! A set with `--large`: sizes, items that go round from FFFFFF to 000000, recording in both their blocks, and operands
//! refused there by low-address protection.

use std::collections::BTreeSet;
use std::ops::RangeInclusive;

use second::vectors::{SetOptions, VectorSet};
use second::{Answer, ReferenceKind};

use crate::low_addresses::refused_round_the_top;
use crate::reader::{read, ReadCall};

/// What goes round in a completed call.
fn going_round(call: &ReadCall, answer: &Answer) -> Vec<&'static str> {
    let mut items = Vec::new();
    let entries = || answer.references.iter().zip(answer.references.iter().skip(1));
    let starts_at_0 = |bytes: &[u32]| bytes.first() == Some(&0);
    if call.request.guest.control_register_6 & 0x00FF_FFF8 == 0x00FF_FFF8
        && answer.references.iter().any(|entry| starts_at_0(&entry.bytes))
    {
        items.push("MICBLOK");
    }
    for entry in &answer.references {
        if entry.bytes.windows(2).any(|two| two == [0xFF_FFFF, 0]) {
            items.push(match (entry.kind, entry.bytes.len()) {
                (ReferenceKind::VirtualRegister, _) if call.request.first_halfword >> 8 == 0xB1 => {
                    "virtual register of LRA"
                }
                (ReferenceKind::VirtualRegister, _) => "virtual register",
                (ReferenceKind::ControlField, 2) => "virtual PSW",
                (ReferenceKind::ControlField, 4) => match call.request.first_halfword >> 8 {
                    0x08 => "swap word of SSK",
                    0x09 => "swap word of ISK",
                    _ => "swap word of RRB",
                },
                _ => "other",
            });
        }
    }
    let stores = |kind| kind == ReferenceKind::Store;
    if entries().any(|(one, next)| {
        stores(one.kind) && stores(next.kind) && one.bytes[0] == 0xFF_FFFC && starts_at_0(&next.bytes)
    }) {
        items.push("operand");
    }
    items
}

/// Whether an item that goes round is in a block (the first or the last) whose reference bit is zero before the call.
fn records_round_the_top(call: &ReadCall, answer: &Answer) -> bool {
    let goes_round = |bytes: &[u32]| bytes.windows(2).any(|two| two == [0xFF_FFFF, 0]);
    let is_zero = |number: usize| call.keys[number] & 0x04 == 0;
    answer.references.iter().any(|entry| goes_round(&entry.bytes)) && (is_zero(0) || is_zero(8_191))
}

#[test]
fn sizes_and_items_that_go_round() {
    let set = VectorSet::new(SetOptions { seed: 1, calls: 60, large: true });
    let (mut sizes, mut items, mut completed, mut recorded) = (Vec::new(), BTreeSet::new(), 0, 0);
    let printed = read(set.stdin(), &mut |call: &ReadCall, answer: &Answer| {
        sizes.push(call.storage.len());
        assert!(call.keys.len() <= 8_448);
        recorded += usize::from(records_round_the_top(call, answer));
        items.extend(refused_round_the_top(call, answer).then_some("protected operand"));
        if answer.ending.number() == 0 {
            completed += 1;
            items.extend(going_round(call, answer));
        }
    });
    assert!(printed == set.stdout());
    assert_eq!((sizes.len(), set.shares.figures), (60, 0));
    let of_size = |range: RangeInclusive<usize>| sizes.iter().filter(|size| range.contains(size)).count();
    assert_eq!(of_size(0..=16_779_264), 60);
    assert!(of_size(0x100_0000..=0x100_0000) >= 30);
    assert!(of_size(16_779_264..=16_779_264) >= 1);
    assert!(of_size(4_194_305..=16_777_215) >= 1);
    assert!(completed >= 20, "{completed}");
    assert!(recorded >= 3, "{recorded}");
    for item in [
        "MICBLOK",
        "virtual register",
        "virtual register of LRA",
        "virtual PSW",
        "operand",
        "protected operand",
    ] {
        assert!(items.contains(item), "{item}");
    }
    for mnemonic in ["SSK", "ISK", "RRB"] {
        assert!(items.contains(format!("swap word of {mnemonic}").as_str()), "{mnemonic}");
    }
}
