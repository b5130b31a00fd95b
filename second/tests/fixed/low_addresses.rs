//! Low-address protection: by hand, which of the fixed calls end with interruption 4. The operand is in block 0, or at
//! 2000 in block 4.

use second::fixed::low_addresses;

use crate::expected::*;

/// Keys: MICBLOK, ECBLOK and virtual PSW are in block 0, the second halfword in block 2.
const READ: [Change; 2] = [(0, 0x00, 0x04), (2, 0x00, 0x04)];
const STORED: [Change; 2] = [(0, 0x00, 0x06), (2, 0x00, 0x04)];
const STNSM_AT_2000: [Change; 3] = [(0, 0x00, 0x06), (2, 0x00, 0x04), (4, 0x00, 0x06)];
const STCTL_AT_2000: [Change; 3] = [(0, 0x00, 0x04), (2, 0x00, 0x04), (4, 0x00, 0x06)];

/// MICVPSW, virtual PSW, halfword 2: 4; with the operand's key and two stores 7.
fn store_then(name: (&'static str, &'static str), address: u32, protected: bool) -> Expected {
    // 07 AND FC, 04 OR 03.
    let (old, new) = if name.0 == "STNSM" { (0x07, 0x04) } else { (0x04, 0x07) };
    let mut bytes = [(address, 0x00, old), (0x600, old, new)];
    bytes.sort_unstable();
    let keys: &[Change] = if address == 0x2000 { &STNSM_AT_2000 } else { &STORED };
    if protected {
        expect(name, PROTECTION, 4, &[], &READ, 0x1000)
    } else {
        expect(name, COMPLETED, 7, &bytes, keys, 0x1004)
    }
}

/// MICCREG, halfword 2, the registers; with each word's key and store twice as many again.
fn store_control(case: &'static str, registers: usize, address: u32, protected: bool) -> Expected {
    let bytes = words(&[(address, 0xA6B6C6D6), (address + 4, 0xA7B7C7D7)][..registers]);
    let keys: &[Change] = if address == 0x2000 { &STCTL_AT_2000 } else { &STORED };
    if protected {
        expect(("STCTL", case), PROTECTION, 3 + registers, &[], &READ, 0x1000)
    } else {
        expect(("STCTL", case), COMPLETED, 3 + 3 * registers, &bytes, keys, 0x1004)
    }
}

/// MICCREG, halfword 4, two registers, three for each word tested, two stores. The page tables are in blocks 6 and 7,
/// the second for the page at the top; the words are in blocks 5 and 4.
fn round_the_top() -> [Expected; 2] {
    let bytes = words(&[(0x2000, 0xA7B7C7D7), (0x2FFC, 0xA6B6C6D6)]);
    let read = [(0, 0x00, 0x04), (2, 0x00, 0x04), (6, 0x00, 0x04), (7, 0x00, 0x04)];
    let stored = [(4, 0x00, 0x06), (5, 0x00, 0x06)];
    let mut both = [&read[..], &stored].concat();
    both.sort_unstable();
    let name = |case| ("STCTL", case);
    [
        expect(name("low address: DAT on, operand FFFFFC, bit 3 zero"), COMPLETED, 15, &bytes, &both, 0x1004),
        expect(name("low address: DAT on, operand FFFFFC, bit 3 one"), PROTECTION, 10, &[], &read, 0x1000),
    ]
}

#[test]
fn bit_3_alone_protects() {
    let lists = low_addresses();
    assert_eq!(lists.len(), 32 + 20 + 12 + 2);
    for (bit, list) in lists[..32].iter().enumerate() {
        let call = &list.calls[0];
        assert_eq!(call.request.guest.control_register_0.leading_zeros() as usize, bit);
        assert_eq!(call.request.guest.control_register_0.count_ones(), 1);
        assert_eq!(call.case, format!("low address: operand 1FF, bit {bit} alone"));
        let (mut storage, mut keys) = (list.image.storage(), list.image.key_bytes());
        let answer = call.request.make(&mut storage, &mut keys);
        let given = (answer.ending.number(), answer.ending.code_or_step(), answer.count());
        let (expected, operand) = if bit == 3 { ((1, 4, 4), 0x00) } else { ((0, 0, 7), 0x07) };
        assert_eq!(given, expected, "{}", call.case);
        assert_eq!((storage[0x1FF], keys[0] & 0x02 != 0), (operand, bit != 3), "{}", call.case);
    }
}

#[test]
fn addresses_on_both_sides_of_512() {
    let mut expectations = Vec::new();
    for mnemonic in ["STNSM", "STOSM"] {
        for (address, zero, one, low) in [
            (0x000, "low address: operand 000, bit 3 zero", "low address: operand 000, bit 3 one", true),
            (0x1FC, "low address: operand 1FC, bit 3 zero", "low address: operand 1FC, bit 3 one", true),
            (0x1FF, "low address: operand 1FF, bit 3 zero", "low address: operand 1FF, bit 3 one", true),
            (0x200, "low address: operand 200, bit 3 zero", "low address: operand 200, bit 3 one", false),
            (0x2000, "low address: operand 2000, bit 3 zero", "low address: operand 2000, bit 3 one", false),
        ] {
            expectations.push(store_then((mnemonic, zero), address, false));
            expectations.push(store_then((mnemonic, one), address, low));
        }
    }
    expectations.extend([
        store_control("low address: one register, operand 000, bit 3 zero", 1, 0x000, false),
        store_control("low address: one register, operand 000, bit 3 one", 1, 0x000, true),
        store_control("low address: one register, operand 1FC, bit 3 zero", 1, 0x1FC, false),
        store_control("low address: one register, operand 1FC, bit 3 one", 1, 0x1FC, true),
        store_control("low address: one register, operand 200, bit 3 zero", 1, 0x200, false),
        store_control("low address: one register, operand 200, bit 3 one", 1, 0x200, false),
        store_control("low address: one register, operand 2000, bit 3 zero", 1, 0x2000, false),
        store_control("low address: one register, operand 2000, bit 3 one", 1, 0x2000, false),
        store_control("low address: two registers, operand 1F8, bit 3 zero", 2, 0x1F8, false),
        store_control("low address: two registers, operand 1F8, bit 3 one", 2, 0x1F8, true),
        store_control("low address: two registers, operand 1FC, bit 3 zero", 2, 0x1FC, false),
        store_control("low address: two registers, operand 1FC, bit 3 one", 2, 0x1FC, true),
    ]);
    expectations.extend(round_the_top());
    crate::check(&low_addresses()[32..], &expectations);
}
