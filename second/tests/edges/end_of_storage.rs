//! Edges at the end of storage (document 02, R-10). Block 0 has MICBLOK and ECBLOK, block 1 the tables, block 2 the
//! instruction, block 4 SSM's operand; block 7 (3800 to 3FFF) is the last one. What is read gets 04, what is stored 06
//! . All keys are 00 at first but where it says otherwise.

use second::edges::small;
use second::{Reference, ReferenceKind};

use crate::expected::*;

/// Control fields read, and with them the tables of SSK.
const FIELDS_READ: [Change; 1] = [(0, 0x00, 0x04)];
const TABLES_READ: [Change; 2] = [(0, 0x00, 0x04), (1, 0x00, 0x04)];

/// SSM: MICCREG, register 0, halfword 2, operand byte 2, MICVPSW, virtual PSW, store: 9. STNSM and STOSM: MICVPSW,
/// virtual PSW, halfword 2, key of the operand, two stores: 7.
pub fn virtual_psw_at_the_end() -> Vec<Expected> {
    let second_byte = "virtual PSW in the last halfword of storage, operand in its second byte";
    let keys = [(0, 0x00, 0x04), (2, 0x00, 0x04), (7, 0x00, 0x06)];
    let stored = |name, bytes: &[Change]| expect(name, COMPLETED, 7, bytes, &keys, 0x1004);
    vec![
        // Bits 6 and 7 go to one, none is pending. The bytes at 600, an unused 0408, stay here and below.
        expect(
            ("SSM", "virtual PSW in the last halfword of storage"),
            COMPLETED,
            9,
            &[(0x3FFE, 0x04, 0x07)],
            &[(0, 0x00, 0x04), (2, 0x00, 0x04), (4, 0x00, 0x04), (7, 0x00, 0x06)],
            0x1004,
        ),
        // 07 AND FC is 04: bits 1 and 5 stay. The old byte replaces 08, the second byte of the virtual PSW.
        stored(("STNSM", second_byte), &[(0x3FFE, 0x07, 0x04), (0x3FFF, 0x08, 0x07)]),
        // 04 OR 03 is 07: of bits 0-5 none goes to one.
        stored(("STOSM", second_byte), &[(0x3FFE, 0x04, 0x07), (0x3FFF, 0x08, 0x04)]),
        // MICVPSW; 3FFF in block 7 and 4000 make no entry.
        expect(
            ("STNSM", "virtual PSW one byte on, its second byte not in storage"),
            (3, 3, 0),
            1,
            &[],
            &FIELDS_READ,
            0x1000,
        ),
    ]
}

/// MICRSEG, segment entry, swap address, swap word, page entry: 5; key consulted and set: 7; store: 8. R1 low byte 3F:
/// key 38, byte 3E. The swap word is 50112233.
pub fn set_storage_key_at_the_end() -> Vec<Expected> {
    let stored_at_end = [(0, 0x00, 0x04), (1, 0x00, 0x04), (7, 0x00, 0x06)];
    let page_in_block_2 = [(0, 0x00, 0x04), (1, 0x00, 0x04), (2, 0x00, 0x38), (7, 0x00, 0x06)];
    let own_block = [(0, 0x00, 0x04), (1, 0x00, 0x04), (7, 0x00, 0x3E)];
    let stored = |case, count, bytes: &[Change], keys: &[Change]| {
        expect(("SSK", case), COMPLETED, count, bytes, keys, 0x1002)
    };
    vec![
        // Key 2 was 00: bits 4 and 5 stay zero. 50113E33.
        stored("swap word in the last word of storage", 8, &[(0x3FFE, 0x22, 0x3E)], &page_in_block_2),
        // MICRSEG, segment entry, swap address; 3FFD to 3FFF in block 7 and 4000 make no entry.
        expect(
            ("SSK", "swap word one byte on, its last byte not in storage"),
            (3, 8, 0),
            3,
            &[],
            &TABLES_READ,
            0x1000,
        ),
        // The word's fetch reads block 7: reference bit, so 5211223E. Then 38, then the store: 3E.
        stored(
            "key of the last block, swap word in that block",
            8,
            &[(0x3FFC, 0x50, 0x52), (0x3FFF, 0x33, 0x3E)],
            &own_block,
        ),
        // No key entries; 50113E33. Key 2, of the frame that the invalid entry names, stays 00.
        stored(
            "invalid page, swap word in the last word of storage",
            6,
            &[(0x3FFE, 0x22, 0x3E)],
            &stored_at_end,
        ),
    ]
}

/// MICRSEG, halfword 2, segment entry, swap address: 5; swap word, page entry, key consulted and set, store: 10. The
/// condition code is 1 at first.
pub fn reset_reference_bit_at_the_end() -> Vec<Expected> {
    let read = [(0, 0x00, 0x04), (1, 0x00, 0x04), (2, 0x00, 0x04)];
    vec![
        // Swap word 50C3FFFD, bit 20 one. Key 7 is FF: backup bits 6 and 7, so 53C3FFF9. The reference bit is one in
        // both, the change bit in the key alone: code 3. Step 12 makes FB of key 7, the store FF again. The word at D18
        // and key 4 stay.
        expect(
            ("RRB", "key of the last block, swap word in that block"),
            COMPLETED,
            10,
            &[(0x3FFC, 0x50, 0x53), (0x3FFF, 0xFD, 0xF9)],
            &read,
            0x1004,
        )
        .condition_code(3),
        // MICRSEG, segment entry and swap address are places 1 to 3. 3FFD to 3FFF in block 7 and 4000 make no entry.
        expect(
            ("RRB", "swap word one byte on, its last byte not in storage"),
            (3, 4, 0),
            5,
            &[],
            &read,
            0x1000,
        ),
    ]
}

/// Has an earlier entry fetched every byte that this one stores, or consulted the key that it sets?
fn was_there(before: &[Reference], entry: &Reference) -> bool {
    let fetched =
        |byte| before.iter().any(|one| one.kind != ReferenceKind::Store && one.bytes.contains(byte));
    let consulted = |one: &Reference| one.kind == ReferenceKind::KeyConsulted && one.key == entry.key;
    match entry.kind {
        ReferenceKind::KeySet => before.iter().any(consulted),
        _ => entry.bytes.iter().all(fetched),
    }
}

/// Stores: one of SSM, two each of STNSM and STOSM, three of SSK, one of RRB. Keys are set for the three valid pages.
#[test]
fn what_is_stored_was_fetched_and_what_is_set_was_consulted() {
    let mut numbers = [0, 0];
    for edge in &small()[240..250] {
        let list = edge.run().answer.references;
        for (place, entry) in list.iter().enumerate() {
            let number = match entry.kind {
                ReferenceKind::Store => &mut numbers[0],
                ReferenceKind::KeySet => &mut numbers[1],
                _ => continue,
            };
            *number += 1;
            assert!(was_there(&list[..place], entry), "{} {}", edge.mnemonic(), edge.case);
        }
    }
    assert_eq!(numbers, [1 + 2 + 2 + 3 + 1, 3]);
}
