//! ISK and RRB with a fetch of their own in the page's block. Its key is 50 before the call, without either bit;
//! virtual keys are A8 (ISK) and F8 (RRB), without either bit too. All other keys are 00.

use crate::expected::*;

/// ISK stores nothing: step 11 comes after steps 2 to 9 and before 12 and 13. Blocks read: MICBLOK's 0 and the
/// tables' 1, but where it says otherwise.
fn insert_storage_key() -> Vec<Expected> {
    let isk = |case, keys: &[Change], byte: u32| {
        expect(("ISK", case), COMPLETED, 8, &[], keys, 0x1002).register(3, 0xABCD_EF00 | byte)
    };
    let read = |block| (block, 0x00, 0x04);
    let own = |block| (block, 0x50, 0x54);
    vec![
        // MICRSEG at 17F8, MICVPSW at 1800, virtual PSW at 600.
        isk("own block: MICRSEG alone", &[read(0), read(1), own(2), read(3)], 0xAC),
        isk("own block: MICVPSW alone", &[read(0), read(1), read(2), own(3)], 0xA8),
        // Virtual PSW at 2600.
        isk("own block: virtual PSW alone", &[read(0), read(1), own(4)], 0xA8),
        isk("own block: MICRSEG and MICVPSW", &[own(0), read(1), read(4)], 0xAC),
        isk("own block: tables", &[read(0), own(1)], 0xAC),
        isk("own block: nothing", &[read(0), read(1)], 0xA8),
    ]
}

/// The key is cleared again by step 12, before the swap word (D18, in block 1) is stored. Blocks read: 0, 1 and 2.
fn reset_reference_bit() -> Vec<Expected> {
    let rrb = |case, count, new_byte_0: u8, keys: &[Change], code| {
        let bytes: &[Change] = if new_byte_0 == 0x50 { &[] } else { &[(0xD18, 0x50, new_byte_0)] };
        expect(("RRB", case), COMPLETED, count, bytes, keys, 0x1004).condition_code(code)
    };
    let (micblok, tables, halfword) = ((0, 0x00, 0x04), (1, 0x00, 0x06), (2, 0x00, 0x04));
    vec![
        rrb("own block: MICRSEG", 10, 0x58, &[tables, halfword], 2),
        // The upper half: backup bit 6. The store sets both bits.
        rrb("own block: tables", 10, 0x52, &[micblok, (1, 0x50, 0x56), halfword], 2),
        rrb("own block: second halfword", 10, 0x58, &[micblok, tables], 2),
        rrb("own block: DAT tables", 12, 0x58, &[micblok, tables, halfword], 2),
        rrb("own block: nothing", 10, 0x50, &[micblok, tables, halfword], 0),
    ]
}

pub fn own_block() -> Vec<Expected> {
    let mut list = insert_storage_key();
    list.extend(reset_reference_bit());
    list
}
