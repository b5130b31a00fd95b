//! Edges of RRB (document 02, R-4; steps of document 002). MICRSEG is in block 0 and read (04), the tables in block
//! 1, where the swap word (D18) is stored too (06), the second halfword (1002) in block 2 (04); the page is in blocks
//! 4 and 5. These keys are 00 at first but where it says otherwise. The condition code is 1 at first.

use crate::expected::*;

/// MICRSEG, halfword 2, segment entry, swap-table address, swap word, page entry, key consulted, key set, store; of an
/// invalid page without the two keys.
const VALID: usize = 10;
const INVALID: usize = 8;

const STORED: [Change; 3] = [(0, 0x00, 0x04), (1, 0x00, 0x06), (2, 0x00, 0x04)];
const READ: [Change; 3] = [(0, 0x00, 0x04), (1, 0x00, 0x04), (2, 0x00, 0x04)];

fn completed(case: &'static str, count: usize, code: u32, bytes: &[Change], page_key: &[Change]) -> Expected {
    let keys = [&STORED, page_key].concat();
    expect(("RRB", case), COMPLETED, count, bytes, &keys, 0x1004).condition_code(code)
}

fn ended(case: &'static str, ending: (u32, u32, u32), count: usize, keys: &[Change], next: u32) -> Expected {
    expect(("RRB", case), ending, count, &[], keys, next)
}

pub fn reset_reference_bit() -> Vec<Expected> {
    let mut list = bit_20_zero();
    list.extend(bit_20_one());
    list.extend(page_invalid());
    list.extend(places());
    list.extend(second_halfword());
    list.extend(control_register_6());
    list.extend(own_block());
    list.extend(dat_on_and_other_codes());
    list
}

/// Backup bits 4 (08) and 5 (04), virtual bits 21 (04 of byte 2) and 22 (02). Of key 4 the reference bit (04) goes, the
/// change bit (02) stays.
fn bit_20_zero() -> Vec<Expected> {
    let row = |case, code, bytes: &[Change], key: &[Change]| completed(case, VALID, code, bytes, key);
    vec![
        row("key F9, swap word 50C3F9FF, bit 20 zero", 0, &[], &[]),
        row("key FB, swap word 50C3F9FF, bit 20 zero", 1, &[(0xD18, 0x50, 0x54)], &[]),
        row("key FD, swap word 50C3F9FF, bit 20 zero", 2, &[(0xD18, 0x50, 0x58)], &[(4, 0xFD, 0xF9)]),
        row("key FF, swap word 50C3F9FF, bit 20 zero", 3, &[(0xD18, 0x50, 0x5C)], &[(4, 0xFF, 0xFB)]),
        // The virtual bits: change stays, reference goes.
        row("key F9, swap word 50C3FBFF, bit 20 zero", 1, &[], &[]),
        row("key F9, swap word 50C3FDFF, bit 20 zero", 2, &[(0xD1A, 0xFD, 0xF9)], &[]),
        row("key F9, swap word 50C3FFFF, bit 20 zero", 3, &[(0xD1A, 0xFF, 0xFB)], &[]),
        // One bit of either, each ORed.
        row("key FB, swap word 50C3FDFF, bit 20 zero", 3, &[(0xD18, 0x50, 0x54), (0xD1A, 0xFD, 0xF9)], &[]),
        row("key FD, swap word 50C3FBFF, bit 20 zero", 3, &[(0xD18, 0x50, 0x58)], &[(4, 0xFD, 0xF9)]),
    ]
}

/// Backup bits 6 (02) and 7 (01), virtual bits 29 and 30: byte 3. The other set's virtual bits are ones and stay.
fn bit_20_one() -> Vec<Expected> {
    let row = |case, code, bytes: &[Change], key: &[Change]| completed(case, VALID, code, bytes, key);
    vec![
        row("key F9, swap word 50C3FFF9, bit 20 one", 0, &[], &[]),
        row("key FB, swap word 50C3FFF9, bit 20 one", 1, &[(0xD18, 0x50, 0x51)], &[]),
        row("key FD, swap word 50C3FFF9, bit 20 one", 2, &[(0xD18, 0x50, 0x52)], &[(5, 0xFD, 0xF9)]),
        row("key FF, swap word 50C3FFF9, bit 20 one", 3, &[(0xD18, 0x50, 0x53)], &[(5, 0xFF, 0xFB)]),
        row("key F9, swap word 50C3FFFF, bit 20 one", 3, &[(0xD1B, 0xFF, 0xFB)], &[]),
        // Backup bits of both sets, which are not looked at and stay.
        row("key F9, swap word 5FC3F9F9, bit 20 zero", 0, &[], &[]),
    ]
}

/// The virtual bits alone; keys 4 and 5, FF, are not touched. Then the last byte of the page: the upper half.
fn page_invalid() -> Vec<Expected> {
    let row = |case, code, bytes: &[Change]| completed(case, INVALID, code, bytes, &[]);
    vec![
        row("page invalid, swap word 50C3FFFF, bit 20 zero", 3, &[(0xD1A, 0xFF, 0xFB)]),
        row("page invalid, swap word 50C3FFFF, bit 20 one", 3, &[(0xD1B, 0xFF, 0xFB)]),
        row("page invalid, swap word 5FC3F9F9, bit 20 one", 0, &[]),
        completed("operand 023FFF", VALID, 3, &[(0xD18, 0x50, 0x51), (0xD1B, 0xFD, 0xF9)], &[]),
    ]
}

/// The second halfword is no control field: two entries from the second place on, but no place of its own.
fn places() -> Vec<Expected> {
    let keys = [&READ[..], &[(7, 0x00, 0x04)]].concat();
    vec![
        ended("MICBLOK at 4000", (3, 1, 0), 0, &[], 0x1000),
        ended("segment table at 4000", (3, 2, 0), 3, &[(0, 0x00, 0x04), (2, 0x00, 0x04)], 0x1000),
        ended("page table at 0, the swap table's address at FFFFFC", (3, 3, 0), 4, &READ, 0x1000),
        ended("swap word at 3FFF", (3, 4, 0), 5, &READ, 0x1000),
        ended("page table at 4000", (3, 5, 0), 6, &keys, 0x1000),
        ended("page in frame 0FF", (3, 6, 0), 7, &READ, 0x1000),
    ]
}

/// Step 4: after MICRSEG and its bit 30, before the walk.
fn second_halfword() -> Vec<Expected> {
    let micrseg = [(0, 0x00, 0x04)];
    vec![
        ended("second halfword not in storage", ADDRESSING, 1, &micrseg, 0x3FFE),
        // Its key is consulted.
        ended("second halfword fetch-protected", PROTECTION, 2, &micrseg, 0x1000),
        // Segment and page entry, in block 6.
        ended(
            "second halfword's page invalid",
            (1, 17, 0x1002),
            3,
            &[(0, 0x00, 0x04), (6, 0x00, 0x04)],
            0x1000,
        ),
        ended("second halfword not in storage, MICRSEG bit 30 one", REFUSED, 1, &micrseg, 0x3FFE),
        ended("second halfword not in storage, segment table at 4000", ADDRESSING, 1, &micrseg, 0x3FFE),
    ]
}

/// 10X0. Key FB has the change bit; the virtual reference bit is one.
fn control_register_6() -> Vec<Expected> {
    let bytes = [(0xD18, 0x50, 0x54), (0xD1A, 0xFD, 0xF9)];
    vec![
        completed("control register 6 bits 0-3 1010", VALID, 3, &bytes, &[]),
        ended("control register 6 bits 0-3 1001", REFUSED, 0, &[], 0x1000),
        ended("control register 6 bits 0-3 1100", REFUSED, 0, &[], 0x1000),
    ]
}

/// The key is F9 before the call.
fn own_block() -> Vec<Expected> {
    let own = |case, byte: Change, keys: &[Change]| {
        expect(("RRB", case), COMPLETED, VALID, &[byte], keys, 0x1004).condition_code(2)
    };
    vec![
        // The second halfword's fetch makes FD of key 2, step 12 makes F9 of it again.
        own("instruction in the page's own block", (0xD18, 0x50, 0x58), &STORED[..2]),
        // The tables' fetches make FD of key 1, step 12 F9, the swap word's store FF.
        own(
            "tables in the page's own block",
            (0xD18, 0x50, 0x52),
            &[(0, 0x00, 0x04), (1, 0xF9, 0xFF), (2, 0x00, 0x04)],
        ),
    ]
}

/// With DAT on segment and page entry of the second halfword more; the operand is not translated by DAT.
fn dat_on_and_other_codes() -> Vec<Expected> {
    let bytes = [(0xD18, 0x50, 0x54), (0xD1A, 0xFD, 0xF9)];
    let other = |case| expect(("other", case), (13, 0, 0), 0, &[], &[], 0x1000);
    vec![
        completed("DAT on, instruction's page in frame 001", VALID + 2, 3, &bytes, &[(6, 0x00, 0x04)]),
        other("first halfword B212"),
        other("first halfword B214"),
    ]
}

/// The swap word is at FFFFFE to 000001: blocks 1FFF and 0, both stored in. Block 1 has the other tables.
pub fn large_reset_reference_bit() -> Expected {
    let keys =
        [(0x0, 0x00, 0x06), (0x1, 0x00, 0x04), (0x2, 0x00, 0x04), (0x4, 0xFF, 0xFB), (0x1FFF, 0x00, 0x06)];
    let case = "key FF, swap word 50C3F9FF at FFFFFE, bit 20 zero";
    expect(("RRB", case), COMPLETED, VALID, &[(0xFF_FFFE, 0x50, 0x5C)], &keys, 0x1004).condition_code(3)
}
