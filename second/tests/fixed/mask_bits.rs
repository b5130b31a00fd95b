//! Bits of the system mask, each alone: by hand, which of them end the attempt.

use second::fixed::mask_bits;

/// Mnemonic, mode, pending, how the bit goes; the bits (as a mask byte) with which the attempt does not complete.
const BITS: [(&str, &str, &str, u8); 28] = [
    // New bits 0, 2, 3, 4 not zero, or bit 1 or 5 changed; pending: also bit 6 or 7 to one.
    ("SSM", "EC, not pending", "to one", 0xFC),
    ("SSM", "EC, not pending", "to zero", 0x44),
    ("SSM", "EC, not pending", "stays one", 0xB8),
    ("SSM", "EC, pending", "to one", 0xFF),
    ("SSM", "EC, pending", "to zero", 0x44),
    ("SSM", "EC, pending", "stays one", 0xB8),
    // Pending and any bit to one.
    ("SSM", "BC, not pending", "to one", 0x00),
    ("SSM", "BC, not pending", "to zero", 0x00),
    ("SSM", "BC, not pending", "stays one", 0x00),
    ("SSM", "BC, pending", "to one", 0xFF),
    ("SSM", "BC, pending", "to zero", 0x00),
    ("SSM", "BC, pending", "stays one", 0x00),
    // EC and bit 1 or 5 to zero.
    ("STNSM", "EC, not pending", "to zero", 0x44),
    ("STNSM", "EC, not pending", "stays one", 0x00),
    ("STNSM", "EC, pending", "to zero", 0x44),
    ("STNSM", "EC, pending", "stays one", 0x00),
    ("STNSM", "BC, not pending", "to zero", 0x00),
    ("STNSM", "BC, not pending", "stays one", 0x00),
    ("STNSM", "BC, pending", "to zero", 0x00),
    ("STNSM", "BC, pending", "stays one", 0x00),
    // EC and any of bits 0-5 to one; pending and any bit to one.
    ("STOSM", "EC, not pending", "to one", 0xFC),
    ("STOSM", "EC, not pending", "stays one", 0x00),
    ("STOSM", "EC, pending", "to one", 0xFF),
    ("STOSM", "EC, pending", "stays one", 0x00),
    ("STOSM", "BC, not pending", "to one", 0x00),
    ("STOSM", "BC, not pending", "stays one", 0x00),
    ("STOSM", "BC, pending", "to one", 0xFF),
    ("STOSM", "BC, pending", "stays one", 0x00),
];

/// The expanded assist is installed and switched on: it is ending 2, but for SSM in BC mode, which refuses.
fn ending_by_hand(mnemonic: &str, state: &str) -> (u32, u32) {
    if mnemonic == "SSM" && state.starts_with("BC") {
        (1, 2)
    } else {
        (2, 0)
    }
}

#[test]
fn each_bit_alone_ends_the_attempt_or_not() {
    let lists = mask_bits();
    assert_eq!(lists.len(), 8 * BITS.len());
    for (eight, (mnemonic, state, going, ends)) in lists.chunks(8).zip(BITS) {
        for (bit, list) in eight.iter().enumerate() {
            let call = &list.calls[0];
            let name = format!("mask: {state}, bit {bit} {going}");
            assert_eq!((call.mnemonic(), &call.case), (mnemonic, &name));
            let (mut storage, mut keys) = (list.image.storage(), list.image.key_bytes());
            let answer = call.request.make(&mut storage, &mut keys);
            let given = (answer.ending.number(), answer.ending.code_or_step());
            let (ending, count) = if ends & (0x80 >> bit) != 0 {
                (ending_by_hand(mnemonic, state), if mnemonic == "SSM" { 8 } else { 2 })
            } else {
                let new = if going == "to zero" { 0 } else { 0x80 >> bit };
                assert_eq!(storage[0x600], new, "{mnemonic} {name}");
                ((0, 0), if mnemonic == "SSM" { 9 } else { 7 })
            };
            assert_eq!((given, answer.count()), (ending, count), "{mnemonic} {name}");
        }
    }
}
