//! Edges of low-address protection (document 02, R-6). All keys are 00 at first but where it says otherwise. The low
//! addresses are in block 0, as MICBLOK, ECBLOK and virtual PSW are; the instruction is in block 2, DAT tables in 6.

use crate::expected::*;

/// The second halfword and control fields read; the same with a store in block 0.
const READ: [Change; 2] = [(0, 0x00, 0x04), (2, 0x00, 0x04)];
const STORED: [Change; 2] = [(0, 0x00, 0x06), (2, 0x00, 0x04)];

/// The same with entries of DAT tables.
const READ_BY_DAT: [Change; 3] = [(0, 0x00, 0x04), (2, 0x00, 0x04), (6, 0x00, 0x04)];
const STORED_BY_DAT: [Change; 3] = [(0, 0x00, 0x06), (2, 0x00, 0x04), (6, 0x00, 0x04)];

/// MICVPSW, virtual PSW, halfword 2: 4. Then the operand's key and two stores: 7. 07 OR 03 is 07.
pub fn store_then_low() -> Vec<Expected> {
    let stored = |name, bytes: &[Change]| expect(name, COMPLETED, 7, bytes, &STORED, 0x1004);
    let refused = |name| expect(name, PROTECTION, 4, &[], &READ, 0x1000);
    vec![
        stored(
            ("STNSM", "operand 1FF (511), bit 3 zero: stored"),
            &[(0x1FF, 0x00, 0x07), (0x600, 0x07, 0x04)],
        ),
        refused(("STNSM", "operand 1FF (511), bit 3 one: protection")),
        stored(
            ("STNSM", "operand 200 (512), bit 3 one: stored"),
            &[(0x200, 0x00, 0x07), (0x600, 0x07, 0x04)],
        ),
        stored(("STOSM", "operand 000, bit 3 zero: stored"), &[(0x000, 0x00, 0x07)]),
        refused(("STOSM", "operand 000, bit 3 one: protection")),
        stored(("STOSM", "operand 200 (512), bit 3 one: stored"), &[(0x200, 0x00, 0x07)]),
    ]
}

/// MICCREG, halfword 2: 3. Then the registers, each word's key, the stores. Register 5 is A5B5C5D5.
pub fn store_control_low() -> Vec<Expected> {
    let not_on_a_word = "operand 1FE (510), not on a word, bit 3 one: refused by step 4";
    let other_bits = "word at 1FC (508), every bit of control register 0 but bit 3 one: stored";
    let stored = |case, address| {
        expect(("STCTL", case), COMPLETED, 6, &words(&[(address, 0xA5B5C5D5)]), &STORED, 0x1004)
    };
    vec![
        stored("word at 1FC (508), bit 3 zero: stored", 0x1FC),
        expect(("STCTL", "word at 1FC (508), bit 3 one: protection"), PROTECTION, 4, &[], &READ, 0x1000),
        stored("word at 200 (512), bit 3 one: stored", 0x200),
        // Step 4 comes before the register is fetched.
        expect(("STCTL", not_on_a_word), REFUSED, 3, &[], &READ, 0x1000),
        // Both registers are fetched; the first word ends the test, so neither has a key entry.
        expect(
            ("STCTL", "words at 1FC and 200, bit 3 one: neither stored"),
            PROTECTION,
            5,
            &[],
            &READ,
            0x1000,
        ),
        stored(other_bits, 0x1FC),
    ]
}

pub fn first_step_and_control_fields() -> Vec<Expected> {
    let both_in_storage = [(0, 0x00, 0x06), (2, 0x00, 0x04), (4, 0x00, 0x06)];
    vec![
        // MICVPSW and virtual PSW; bit 5 of 07 would go to zero, the expanded assist is not installed.
        expect(
            ("STNSM", "operand 1FF (511), bit 3 one, AND F8: step 4 comes first"),
            REFUSED,
            2,
            &[],
            &[(0, 0x00, 0x04)],
            0x1000,
        ),
        // The byte at 600 stays.
        expect(
            ("STNSM", "virtual PSW at 100, bit 3 one: both bytes stored"),
            COMPLETED,
            7,
            &[(0x100, 0x07, 0x04), (0x2000, 0x00, 0x07)],
            &both_in_storage,
            0x1004,
        ),
        // MICCREG, register 0, halfword 2, operand byte 2, MICVPSW, virtual PSW, store.
        expect(
            ("SSM", "operand 1FF and virtual PSW at 100, bit 3 one: fetched and stored"),
            COMPLETED,
            9,
            &[(0x100, 0x04, 0x07)],
            &STORED,
            0x1004,
        ),
        // Five fields, key consulted and set, store. Key 2 is 00: the word is 00003E00, the key 38.
        expect(
            ("SSK", "swap word at 118, bit 3 one: stored"),
            COMPLETED,
            8,
            &[(0x11A, 0x00, 0x3E)],
            &[(0, 0x00, 0x06), (1, 0x00, 0x04), (2, 0x00, 0x38)],
            0x1002,
        ),
    ]
}

/// MICVPSW, virtual PSW, halfword 4: 6. Then segment entry, page entry, key, two stores: 11.
pub fn translated_low() -> Vec<Expected> {
    let stored_at_21ff = [(0, 0x00, 0x06), (2, 0x00, 0x04), (4, 0x00, 0x06), (6, 0x00, 0x04)];
    let refused = |case| expect(("STNSM", case), PROTECTION, 6, &[], &READ_BY_DAT, 0x1000);
    vec![
        // The segment entry and the page entry, which is invalid.
        expect(
            ("STNSM", "DAT on, operand 1FF, page invalid, bit 3 zero: page translation"),
            (1, 17, 0x1FF),
            8,
            &[],
            &READ_BY_DAT,
            0x1000,
        ),
        refused("DAT on, operand 1FF, page invalid, bit 3 one: protection comes first"),
        expect(
            ("STNSM", "DAT on, operand 1FF in frame 002, bit 3 zero: stored at 21FF"),
            COMPLETED,
            11,
            &[(0x600, 0x07, 0x04), (0x21FF, 0x00, 0x07)],
            &stored_at_21ff,
            0x1004,
        ),
        refused("DAT on, operand 1FF in frame 002, bit 3 one: protection"),
        expect(
            ("STNSM", "DAT on, operand 21FF in frame 000, bit 3 one: stored at 1FF"),
            COMPLETED,
            11,
            &[(0x1FF, 0x00, 0x07), (0x600, 0x07, 0x04)],
            &STORED_BY_DAT,
            0x1004,
        ),
    ]
}

/// In 16 MiB: 1 + 2, then the registers and the keys of the words below the top; the word at 000000 makes no entry.
pub fn large_low() -> Vec<Expected> {
    let two = "operand FFFFFC, two registers, 16 MiB, bit 3 one: goes round to 000000, nothing stored";
    let three = "operand FFFFF8, three registers, 16 MiB, bit 3 one: third word at 000000 makes no entry, \
                 nothing stored";
    vec![
        // 1 + 2 + 2 + 1
        expect(("STCTL", two), PROTECTION, 6, &[], &READ, 0x1000),
        // 1 + 2 + 3 + 2; key 0 is 20 at first, key 1FFF (10) stays.
        expect(("STCTL", three), PROTECTION, 8, &[], &[(0x0, 0x20, 0x24), (0x2, 0x00, 0x04)], 0x1000),
    ]
}
