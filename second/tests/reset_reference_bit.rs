//! RRB, step by step (document 002, with Figures 10 and 11). MICRSEG is in block 0, which is read (04), the tables in
//! block 1, which is also stored in (06), the second halfword in block 2 (04), the page in blocks 4 and 5.

mod common;

use common::*;
use second::setup::{Setup, MICBLOK};
use second::ReferenceKind::*;

/// Completes with condition code 3: key FB has the change bit, the virtual reference bit is one.
fn completes(setup: &Setup) -> Ran {
    expect_set(setup, COMPLETED, 10, Set::ConditionCode(3))
}

#[test]
fn list_of_references_valid_page() {
    let ran = completes(&Setup::rrb());
    assert_eq!(ran.kinds()[..3], [ControlField, KeyConsulted, InstructionHalfword]);
    assert_eq!(ran.kinds()[3..7], [ControlField; 4]);
    assert_eq!(ran.kinds()[7..], [KeyConsulted, KeySet, Store]);
    // Steps 2 and 4.
    assert_eq!(ran.named_bytes(0), &[0x400, 0x401, 0x402, 0x403]);
    assert_eq!((ran.named_key(1), ran.named_bytes(2)), (Some(2), &[0x1002, 0x1003][..]));
    // Steps 6, 8, 9, 10.
    assert_eq!(ran.named_bytes(3), &[0x808, 0x809, 0x80A, 0x80B]);
    assert_eq!(ran.named_bytes(4), &[0xC0C, 0xC0D, 0xC0E, 0xC0F]);
    assert_eq!(ran.named_bytes(5), &[0xD18, 0xD19, 0xD1A, 0xD1B]);
    assert_eq!(ran.named_bytes(6), &[0xC16, 0xC17]);
    // Steps 12 and 13: the whole word is one store.
    assert_eq!((ran.named_key(7), ran.named_key(8)), (Some(4), Some(4)));
    assert_eq!(ran.named_bytes(9), &[0xD18, 0xD19, 0xD1A, 0xD1B]);
    assert_eq!(ran.bytes, [(0xD18, 0x50, 0x54), (0xD1A, 0xFD, 0xF9)]);
    assert_eq!(ran.keys, [(0, 0x00, 0x04), (1, 0x00, 0x06), (2, 0x00, 0x04)]);
}

#[test]
fn list_of_references_with_dat() {
    // Real tables for the operand, DAT for the second halfword alone: operand page 2 is not mapped.
    let setup = Setup::rrb().dat(0b10000).map(0x1000, 0x1000);
    let ran = expect_set(&setup, COMPLETED, 12, Set::ConditionCode(3));
    assert_eq!(ran.kinds()[..2], [ControlField, SegmentEntry]);
    assert_eq!(ran.kinds()[2..5], [PageEntry, KeyConsulted, InstructionHalfword]);
    assert_eq!(ran.kinds()[5..9], [ControlField; 4]);
    assert_eq!((ran.named_bytes(1)[0], ran.named_bytes(2)), (0x3000, &[0x3402, 0x3403][..]));
}

#[test]
fn invalid_page() {
    // No key entry; the keys of both frames' blocks stay. Bits 13-14 and the frame do not matter.
    for page_entry in [0x0028, 0x002E, 0xFFFF, 0x0008] {
        let setup = Setup::rrb().key(4, 0xFF).key(5, 0xFF).halfword(0xC16, page_entry);
        let ran = expect_set(&setup, COMPLETED, 8, Set::ConditionCode(2));
        assert_eq!(ran.kinds()[6..], [ControlField, Store]);
        assert_eq!(ran.bytes, [(0xD1A, 0xFD, 0xF9)]);
        assert_eq!(ran.keys, [(0, 0x00, 0x04), (1, 0x00, 0x06), (2, 0x00, 0x04)]);
    }
}

#[test]
fn step_1() {
    for bits_0_3 in 0..16 {
        let setup = Setup::rrb().control_register_6(bits_0_3 << 28 | 0x0F00_0007 | MICBLOK);
        if [0b1000, 0b1010].contains(&bits_0_3) {
            completes(&setup);
        } else {
            expect(&setup, REFUSED, 0);
        }
    }
    expect(&Setup::rrb().control_register_6(0x9000_4000), REFUSED, 0);
}

/// Any operand address: bits 28-31 are not tested, and no byte of the operand is touched.
#[test]
fn operand() {
    for address in [0x02_3000, 0x02_3001, 0x02_300F, 0x02_37FF] {
        completes(&Setup::rrb().operand(address));
    }
    // Base 0 means zero, not register 0: 0007F0 is in page 0 of segment 0.
    let page_0 = |second_halfword| {
        let setup = Setup::rrb().halfword(0x1002, second_halfword).word(0x800, 0xF000_0C10);
        setup.halfword(0xC10, 0x0020).word(0xD00, 0x50C3_FDFF)
    };
    completes(&page_0(0x07F0).register(0, 0x5A77_7000));
    // Bits 0-7 of the base do not matter; FFFFFF + 001 goes round to 000000.
    completes(&Setup::rrb().register(2, 0xFF02_2FF0));
    completes(&page_0(0xF001).register(15, 0xFFFF_FFFF));
}

/// Places: MICRSEG 1, segment entry 2, swap-table address 3, swap word 4, page entry 5, key block 6. The second
/// halfword and DAT's entries are no control fields.
#[test]
fn ending_3_carries_the_place() {
    let rrb = Setup::rrb;
    expect(&rrb().control_register_6(0x8000_4000), not_in_storage(1), 0);
    expect(&rrb().word(MICBLOK, 0x4000), not_in_storage(2), 3);
    expect(&rrb().word(0x808, 0xF000_0000), not_in_storage(3), 4);
    expect(&rrb().word(0xC0C, 0x3FE5), not_in_storage(4), 5);
    expect(&rrb().word(0x808, 0xF000_4000).word(0x3FFC, 0xD00), not_in_storage(5), 6);
    expect(&rrb().halfword(0xC16, 0x0040), not_in_storage(6), 7);
    let with_dat = |setup: Setup| setup.dat(0b10000).map(0x1000, 0x1000);
    expect(&with_dat(rrb().word(MICBLOK, 0x4000)), not_in_storage(2), 5);
    expect(&with_dat(rrb().halfword(0xC16, 0x0040)), not_in_storage(6), 9);
    // 4K + 2K + 2K + 2K of storage: frame 002000 has its lower half only.
    completes(&rrb().size(0x2800));
    expect(&rrb().size(0x2800).operand(0x02_3800), not_in_storage(6), 7);
}

/// Step 4 comes after MICRSEG's bit 30 (step 3), before the length (step 5).
#[test]
fn step_4_between_micrseg_s_test_and_the_walk() {
    let outside = Setup::rrb().instruction(0x3FFE, 0x3FFE);
    expect(&outside, ADDRESSING, 1);
    expect(&outside.clone().control_register_6(0x8000_4000), not_in_storage(1), 0);
    expect(&outside.clone().word(MICBLOK, 0x802), REFUSED, 1);
    // Operand 123000 with length 0 is refused in step 5.
    let too_long = Setup::rrb().operand(0x12_3000);
    expect(&too_long, REFUSED, 3);
    expect(&too_long.instruction(0x3FFE, 0x3FFE), ADDRESSING, 1);
    expect(&outside.word(MICBLOK, 0x4000), ADDRESSING, 1);
}

/// The four formats: code 18 by the format, 16, 17, 18 and 5 by the tables, 5 and 4 by the real address and its key.
#[test]
fn step_4_exceptions_as_themselves() {
    for (bits, page_invalid, page_format) in [
        (0b01000, 0x0004, 0x0002),
        (0b01010, 0x0004, 0x0002),
        (0b10000, 0x0008, 0x0004),
        (0b10010, 0x0008, 0x0004),
    ] {
        let setup = Setup::rrb().dat(bits).map(0x1000, 0x1000);
        let (_, page_entry) = setup.clone().entry_addresses(0x1000);
        let frame = (setup.image.word(page_entry) >> 16) as u16;
        expect_set(&setup, COMPLETED, 12, Set::ConditionCode(3));
        let mut wrong_format = setup.clone();
        wrong_format.guest.control_register_0 |= 0x0020_0000;
        expect(&wrong_format, SPECIFICATION, 1);
        expect(&setup.clone().word(0x3000, 0xF000_3401), segment_translation(0x1002), 2);
        expect(&setup.clone().word(0x3000, 0xF100_3400), SPECIFICATION, 2);
        expect(&setup.clone().word(0x3000, 0xF000_4000), ADDRESSING, 2);
        expect(&setup.clone().halfword(page_entry, frame | page_invalid), page_translation(0x1002), 3);
        expect(&setup.clone().halfword(page_entry, frame | page_format), SPECIFICATION, 3);
        expect(&setup.clone().halfword(page_entry, 0x4000), ADDRESSING, 3);
        expect(&setup.psw_key(1).key(2, 0x28), PROTECTION, 4);
    }
}

#[test]
fn steps_5_to_11() {
    let rrb = Setup::rrb;
    // Address 123000: segment 12 at 848, length 1 or more; 1M segments: segment 1, page 23.
    let segment_12 = rrb().operand(0x12_3000).word(0x848, 0xF000_0C10);
    expect(&segment_12, REFUSED, 3);
    completes(&segment_12.clone().word(MICBLOK, 0x0100_0800));
    let of_1m = rrb().operand(0x12_3000).word(MICBLOK, 0x801).word(0x804, 0x2000_0C10);
    let of_1m = of_1m.halfword(0xC56, 0x0020).word(0xE18, 0x50C3_FDFF);
    let ran = completes(&of_1m);
    assert_eq!([3, 5, 6].map(|entry| ran.named_bytes(entry)[0]), [0x804, 0xE18, 0xC56]);
    expect(&of_1m.word(0x804, 0x1000_0C10), REFUSED, 4);
    for segment_entry in [0xF000_0C11, 0xF800_0C10, 0xF100_0C10, 0x2000_0C10] {
        expect(&rrb().word(0x808, segment_entry), REFUSED, 4);
    }
    completes(&rrb().word(0x808, 0x3000_0C16));
    expect(&rrb().halfword(0xC16, 0x0022), REFUSED, 7);
    expect(&rrb().halfword(0xC16, 0x0024), REFUSED, 7);
    expect(&rrb().halfword(0xC16, 0xFFF6), REFUSED, 7);
    completes(&rrb().halfword(0xC16, 0x0021));
}

/// Key and swap word before, then after, and the condition code; bit 20 zero, then one (Figure 10).
#[test]
fn steps_12_and_13() {
    for (bit_20, old_key, before, new_key, after, code) in [
        (0, 0x00, 0x0000_0000, 0x00, 0x0000_0000, 0),
        (0, 0x02, 0x0000_0000, 0x02, 0x0400_0000, 1),
        (0, 0x04, 0x0000_0000, 0x00, 0x0800_0000, 2),
        (0, 0x07, 0x0000_0000, 0x03, 0x0C00_0000, 3),
        (0, 0x01, 0x0000_0400, 0x01, 0x0000_0000, 2),
        (0, 0x01, 0x0000_0200, 0x01, 0x0000_0200, 1),
        (0, 0xF8, 0xFFFF_FFFF, 0xF8, 0xFFFF_FBFF, 3),
        (0, 0xFC, 0xF3FF_F9FF, 0xF8, 0xFBFF_F9FF, 2),
        (0, 0x00, 0xFFFF_F9FF, 0x00, 0xFFFF_F9FF, 0),
        (1, 0x00, 0x0000_0000, 0x00, 0x0000_0000, 0),
        (1, 0x02, 0x0000_0000, 0x02, 0x0100_0000, 1),
        (1, 0x04, 0x0000_0000, 0x00, 0x0200_0000, 2),
        (1, 0x07, 0x0000_0000, 0x03, 0x0300_0000, 3),
        (1, 0x01, 0x0000_0004, 0x01, 0x0000_0000, 2),
        (1, 0x01, 0x0000_0002, 0x01, 0x0000_0002, 1),
        (1, 0xF8, 0xFFFF_FFFF, 0xF8, 0xFFFF_FFFB, 3),
        (1, 0xFC, 0xFCFF_FFF9, 0xF8, 0xFEFF_FFF9, 2),
        (1, 0x00, 0xFFFF_FFF9, 0x00, 0xFFFF_FFF9, 0),
    ] {
        let setup = Setup::rrb().operand(0x02_3000 | bit_20 << 11).word(0xD18, before);
        let setup = setup.key(4, !old_key).key(5, !old_key).key(4 + bit_20, old_key);
        expect_set(&setup, COMPLETED, 10, Set::ConditionCode(code));
        let (mut storage, mut keys) = (setup.image.storage(), setup.image.key_bytes());
        setup.request().make(&mut storage, &mut keys);
        assert_eq!(storage[0xD18..0xD1C], u32::to_be_bytes(after));
        assert_eq!(keys[4 + bit_20 as usize], new_key);
        assert_eq!(keys[5 - bit_20 as usize], !old_key);
    }
}

/// Real PSW bits 18-19 and nothing else, from every code to every code.
#[test]
fn condition_code() {
    for others in [0x0000_0000, 0xFB06_CFFF] {
        for old in 0..4 {
            for (new, key) in [(0, 0xF9), (1, 0xFB), (2, 0xFD), (3, 0xFF)] {
                let mut setup = Setup::rrb().key(4, key).word(0xD18, 0x50C3_F9FF);
                setup.guest.psw_0_31 = others | 0x0009_0000 | old << 12;
                let ran = expect_set(&setup, COMPLETED, 10, Set::ConditionCode(new));
                assert_eq!(ran.answer.guest.psw_0_31, others | 0x0009_0000 | new << 12);
            }
        }
    }
}

/// step 12 reads what steps 2 to 10 have recorded and clears it; the store comes after.
#[test]
fn recording_in_the_page_s_own_block() {
    let rrb = |page_entry, operand| {
        let setup = Setup::rrb().word(0xD18, 0x0000_0000).key(4, 0);
        setup.halfword(0xC16, page_entry).operand(operand)
    };
    let reference = Set::ConditionCode(2);
    // MICRSEG in block 0.
    let ran = expect_set(&rrb(0x0000, 0x02_3000).key(0, 0x31), COMPLETED, 10, reference);
    assert_eq!(ran.bytes, [(0xD18, 0x00, 0x08)]);
    assert_eq!(ran.keys, [(1, 0x00, 0x06), (2, 0x00, 0x04)]);
    // Tables in block 1: cleared, then stored in.
    let ran = expect_set(&rrb(0x0000, 0x02_3800).key(1, 0x31), COMPLETED, 10, reference);
    assert_eq!(ran.bytes, [(0xD18, 0x00, 0x02)]);
    assert_eq!(ran.keys, [(0, 0x00, 0x04), (1, 0x31, 0x37), (2, 0x00, 0x04)]);
    // Second halfword in block 2.
    let ran = expect_set(&rrb(0x0010, 0x02_3000).key(2, 0x31), COMPLETED, 10, reference);
    assert_eq!(ran.bytes, [(0xD18, 0x00, 0x08)]);
    assert_eq!(ran.keys, [(0, 0x00, 0x04), (1, 0x00, 0x06)]);
    // DAT's entries in block 6.
    let setup = rrb(0x0030, 0x02_3000).dat(0b10000).map(0x1000, 0x1000).key(6, 0x31);
    let ran = expect_set(&setup, COMPLETED, 12, reference);
    assert_eq!(ran.keys, [(0, 0x00, 0x04), (1, 0x00, 0x06), (2, 0x00, 0x04)]);
}

#[test]
fn swap_word_goes_round_in_16_mib() {
    let setup = Setup::rrb().size(0x100_0000).word(0xC0C, 0x00FF_FFE6).word(0xFF_FFFE, 0x50C3_FDFF);
    let ran = completes(&setup);
    assert_eq!(ran.named_bytes(9), &[0xFF_FFFE, 0xFF_FFFF, 0, 1]);
    assert_eq!(ran.bytes, [(0, 0xFD, 0xF9), (0xFF_FFFE, 0x50, 0x54)]);
    // An instruction at FFFFFE has its second halfword at 000000, and the next is at 000002.
    let setup = Setup::rrb().size(0x100_0000).instruction(0xCDFF_FFFE, 0xFF_FFFE).halfword(0, 0x2010);
    let ran = completes(&setup);
    assert_eq!((ran.named_bytes(2), ran.answer.guest.psw_32_63), (&[0, 1][..], 0xCD00_0002));
}

/// The swap word is a control field: no bit protects its store, nor does the PSW key.
#[test]
fn control_fields_are_not_protected() {
    let setup = Setup::rrb().low_address_protection().word(0xC0C, 0x100).word(0x118, 0x50C3_FDFF);
    let setup = setup.psw_key(1).key(0, 0xF8).key(1, 0xF8).key(4, 0xFB);
    let ran = completes(&setup);
    assert_eq!(ran.bytes, [(0x118, 0x50, 0x54), (0x11A, 0xFD, 0xF9)]);
}

/// 10, 11, 12 and 9, in this order, and before step 1.
#[test]
fn endings_before_the_steps() {
    let mut setup = Setup::rrb().control_register_6(0);
    setup.guest.psw_0_31 &= !0x0008_0000;
    expect(&setup, (9, 0, 0), 0);
    setup.guest.psw_0_31 = setup.guest.psw_0_31 & !0x0001_0000 | 0x0008_0000;
    expect(&setup, (9, 0, 0), 0);
    setup.guest.psw_32_63 |= 1;
    expect(&setup, (12, 0, 0), 0);
    setup.image.key_count += 1;
    expect(&setup, (11, 0, 0), 0);
    setup.image.storage_size += 1;
    expect(&setup, (10, 0, 0), 0);
}
