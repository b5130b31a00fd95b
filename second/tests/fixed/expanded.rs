//! The expanded assist switched on (document 02, R-3): by hand, what each of the fixed calls gives. "Expanded" is
//! ending 2 if the assist is installed and bit 6 of control register 6 is one, else interruption 2.
//!
//! SSM: MICCREG, register 0, second halfword (2), operand (2), MICVPSW, virtual PSW: 8. STNSM, STOSM: MICVPSW, virtual
//! PSW: 2. All of it is in block 0 but the second halfword (2) and SSM's operand (4).

use second::call::changes;
use second::fixed::{expanded_assist, FixedList};

use crate::expected::*;

const SSM_READ: [Change; 3] = [(0, 0x00, 0x04), (2, 0x00, 0x04), (4, 0x00, 0x04)];
const STORE_THEN_READ: [Change; 1] = [(0, 0x00, 0x04)];

/// Where an attempt comes to an end, and with what if the assist is installed and switched on.
const PLACES: [(&str, &str, (u32, u32, u32)); 10] = [
    ("SSM", "EC, bit 1 changed", EXPANDED),
    ("SSM", "EC, bit 5 changed", EXPANDED),
    ("SSM", "EC, new bit 4 one", EXPANDED),
    ("SSM", "EC, pending, bit 7 to one", EXPANDED),
    ("STNSM", "EC, bit 1 to zero", EXPANDED),
    ("STNSM", "EC, bit 5 to zero", EXPANDED),
    ("STOSM", "EC, bit 5 to one", EXPANDED),
    ("STOSM", "EC, pending, bit 6 to one", EXPANDED),
    ("STOSM", "BC, pending, bit 0 to one", EXPANDED),
    ("SSM", "BC, pending, bit 0 to one", REFUSED),
];

/// Flag, control register 6 and name of the call, its ending and what it has read by then.
fn check(
    list: &FixedList,
    set_up: (bool, u32),
    name: (&str, &str),
    ending: (u32, u32, u32),
    read: &[Change],
) {
    let [call] = &list.calls[..] else { panic!("one call") };
    assert_eq!((call.mnemonic(), call.case.as_str()), (name.0, format!("expanded: {}", name.1).as_str()));
    assert_eq!((call.request.expanded, call.request.guest.control_register_6), set_up, "{name:?}");
    let (storage_before, keys_before) = (list.image.storage(), list.image.key_bytes());
    let (mut storage, mut keys) = (storage_before.clone(), keys_before.clone());
    let answer = call.request.make(&mut storage, &mut keys);
    let given = answer.ending;
    assert_eq!((given.number(), given.code_or_step(), given.logical_address()), ending, "{name:?}");
    let count = match read.len() {
        0 => 0,
        1 => 2,
        _ => 8,
    };
    assert_eq!(answer.count(), count, "{name:?}");
    assert!(storage == storage_before && answer.guest == call.request.guest, "{name:?}");
    assert_eq!(changes(&keys_before, &keys), read, "{name:?}");
}

fn all_read(mnemonic: &str) -> &'static [Change] {
    if mnemonic == "SSM" {
        &SSM_READ
    } else {
        &STORE_THEN_READ
    }
}

#[test]
fn each_place_installed_or_not_with_bit_6_both_ways() {
    let lists = expanded_assist();
    assert_eq!(lists.len(), 4 * 10 + 3 * 13);
    for (four, (mnemonic, place, both)) in lists.chunks(4).zip(PLACES) {
        let ways = [
            ("installed, bit 6 one", (true, 0x8200_0400), both),
            ("installed, bit 6 zero", (true, 0x8000_0400), REFUSED),
            ("not installed, bit 6 one", (false, 0x8200_0400), REFUSED),
            ("not installed, bit 6 zero", (false, 0x8000_0400), REFUSED),
        ];
        for (list, (way, set_up, ending)) in four.iter().zip(ways) {
            check(list, set_up, (mnemonic, &format!("{place}, {way}")), ending, all_read(mnemonic));
        }
    }
}

/// Step 1 of all three refuses bit 1, that of STNSM and STOSM bit 3 too.
#[test]
fn each_bit_alone_and_the_others_together() {
    let lists = &expanded_assist()[40..];
    for (thirteen, mnemonic) in lists.chunks(13).zip(["SSM", "STNSM", "STOSM"]) {
        for (list, bit) in thirteen.iter().zip([1, 2, 3, 4, 5, 6, 7, 29, 30, 31]) {
            let at_step_1 = bit == 1 || bit == 3 && mnemonic != "SSM";
            let word = 0x8000_0400 | 1 << (31 - bit);
            let ending = if bit == 6 { EXPANDED } else { REFUSED };
            let read = if at_step_1 { &[] } else { all_read(mnemonic) };
            check(list, (true, word), (mnemonic, &format!("bit {bit} alone beside bit 0")), ending, read);
        }
        // Bits 0, 2, (3,) 4, 5 and 7, then 29 to 31; with bit 6 it is 02 more.
        let others = if mnemonic == "SSM" { 0xBD00_0407 } else { 0xAD00_0407 };
        for (list, (way, word, ending)) in thirteen[10..].iter().zip([
            ("other bits one, bit 6 one", others + 0x0200_0000, EXPANDED),
            ("other bits one, bit 6 zero", others, REFUSED),
            ("MICACF ones, bit 6 zero", 0x8000_0400, REFUSED),
        ]) {
            check(list, (true, word), (mnemonic, way), ending, all_read(mnemonic));
        }
        assert_eq!(thirteen[12].image.word(0x414), 0xFFFF_FFFF);
    }
}
