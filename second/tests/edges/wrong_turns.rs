//! Wrong turns. Blocks and bits are as in `section`; all keys are 00 at first but where it says otherwise.

use crate::expected::*;

/// SSM; STNSM and STOSM; the same with the operand in block 0, where the virtual PSW is.
const SSM_STORED: [Change; 3] = [(0, 0x00, 0x06), (2, 0x00, 0x04), (4, 0x00, 0x04)];
const STORE_THEN_STORED: [Change; 3] = [(0, 0x00, 0x06), (2, 0x00, 0x04), (4, 0x00, 0x06)];
const STORED_IN_BLOCK_0: [Change; 2] = [(0, 0x00, 0x06), (2, 0x00, 0x04)];

/// Control fields, and with them the second halfword, or entries of DAT tables.
const FIELDS_READ: [Change; 1] = [(0, 0x00, 0x04)];
const HALFWORD_READ: [Change; 2] = [(0, 0x00, 0x04), (2, 0x00, 0x04)];
const TABLES_READ: [Change; 2] = [(0, 0x00, 0x04), (6, 0x00, 0x04)];

pub fn wrong_turns_1_and_2() -> Vec<Expected> {
    let case = "wrong turn 1: pending bit is no part of the address";
    let ones = "wrong turn 1: MICVPSW bits 0-7 are no part of the address";
    let protected = "wrong turn 2: last of three words protected, nothing stored";
    let outside = "wrong turn 2: last of three words not in storage, nothing stored";
    let and_fc = [(0x600, 0x07, 0x04), (0x2000, 0x00, 0x07)];
    vec![
        // 07 to 04: bits 6 and 7 go to zero, not to one.
        expect(("SSM", case), COMPLETED, 9, &[(0x600, 0x07, 0x04)], &SSM_STORED, 0x1004),
        expect(("SSM", ones), COMPLETED, 9, &[(0x600, 0x07, 0x04)], &SSM_STORED, 0x1004),
        expect(("STNSM", case), COMPLETED, 7, &and_fc, &STORE_THEN_STORED, 0x1004),
        expect(("STOSM", case), COMPLETED, 7, &[(0x2000, 0x00, 0x07)], &STORE_THEN_STORED, 0x1004),
        // 1 + 2 + 3 registers + 3 keys; the third (block 5, access 2 for PSW key 1) protects. Keys 4 and 5 stay.
        expect(("STCTL", protected), PROTECTION, 9, &[], &HALFWORD_READ, 0x1000),
        // 1 + 2 + 3 registers + 2 keys; the word at 4000 makes no entry.
        expect(("STCTL", outside), ADDRESSING, 8, &[], &HALFWORD_READ, 0x1000),
    ]
}

pub fn wrong_turn_3() -> Vec<Expected> {
    let protected = "wrong turn 3: second halfword fetch-protected, refuse";
    let invalid = "wrong turn 3: second halfword page invalid, refuse";
    let beside = "beside wrong turn 3: second halfword not in storage, as itself";
    vec![
        // MICVPSW, virtual PSW; the halfword at 4000 makes no entry.
        expect(
            ("STNSM", "wrong turn 3: second halfword not in storage, refuse"),
            REFUSED,
            2,
            &[],
            &FIELDS_READ,
            0x3FFE,
        ),
        // 2 + key of the halfword.
        expect(("STNSM", protected), REFUSED, 3, &[], &FIELDS_READ, 0x1000),
        // 2 + segment entry + page entry; no logical address is carried.
        expect(("STNSM", invalid), REFUSED, 4, &[], &TABLES_READ, 0x1000),
        expect(
            ("STOSM", "wrong turn 3: second halfword not in storage, refuse even with expanded"),
            REFUSED,
            2,
            &[],
            &FIELDS_READ,
            0x3FFE,
        ),
        expect(("STOSM", protected), REFUSED, 3, &[], &FIELDS_READ, 0x1000),
        expect(("STOSM", invalid), REFUSED, 4, &[], &TABLES_READ, 0x1000),
        // MICCREG.
        expect(("STCTL", beside), ADDRESSING, 1, &[], &FIELDS_READ, 0x3FFE),
        // MICCREG, virtual register 0.
        expect(("SSM", beside), ADDRESSING, 2, &[], &FIELDS_READ, 0x3FFE),
    ]
}

pub fn wrong_turn_4() -> Vec<Expected> {
    let second_byte = "wrong turn 4: operand is second byte of virtual PSW";
    let first_byte = "operand is first byte of virtual PSW, new byte stays";
    vec![
        expect(
            ("STNSM", second_byte),
            COMPLETED,
            7,
            &[(0x600, 0x07, 0x04), (0x601, 0x08, 0x07)],
            &STORED_IN_BLOCK_0,
            0x1004,
        ),
        // 04 OR 83 is 87; BC and not pending.
        expect(
            ("STOSM", second_byte),
            COMPLETED,
            7,
            &[(0x600, 0x04, 0x87), (0x601, 0xF7, 0x04)],
            &STORED_IN_BLOCK_0,
            0x1004,
        ),
        expect(("STNSM", first_byte), COMPLETED, 7, &[(0x600, 0x07, 0x04)], &STORED_IN_BLOCK_0, 0x1004),
        expect(("STOSM", first_byte), COMPLETED, 7, &[(0x600, 0x04, 0x87)], &STORED_IN_BLOCK_0, 0x1004),
        expect(
            ("SSM", "BC, operand is second byte of virtual PSW, only byte 0 stored"),
            COMPLETED,
            9,
            &[(0x600, 0x04, 0x55)],
            &STORED_IN_BLOCK_0,
            0x1004,
        ),
    ]
}
