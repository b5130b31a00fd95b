//! STCTL, step by step.

mod common;

use common::*;
use second::setup::{Setup, ECBLOK, MICBLOK};
use second::ReferenceKind::*;

#[test]
fn list_of_references_of_two_registers() {
    let ran = expect(&Setup::stctl(15, 0), COMPLETED, 9);
    let kinds = [
        ControlField,
        KeyConsulted,
        InstructionHalfword,
        VirtualRegister,
        VirtualRegister,
        KeyConsulted,
        KeyConsulted,
        Store,
        Store,
    ];
    assert_eq!(ran.kinds(), kinds);
    assert_eq!(ran.named_bytes(3), &[0x53C, 0x53D, 0x53E, 0x53F]);
    assert_eq!(ran.named_bytes(4), &[0x500, 0x501, 0x502, 0x503]);
    assert_eq!(ran.named_bytes(7), &[0x2000, 0x2001, 0x2002, 0x2003]);
    assert_eq!(ran.named_bytes(8), &[0x2004, 0x2005, 0x2006, 0x2007]);
    let stored: Vec<u8> = ran.bytes.iter().map(|change| change.2).collect();
    assert_eq!(stored, [0xAF, 0xBF, 0xCF, 0xDF, 0xA0, 0xB0, 0xC0, 0xD0]);
}

#[test]
fn count_of_85() {
    // 1 + 4 + 16 + 48 + 16.
    let setup = Setup::stctl(0, 15).dat(0b10000).map(0x1000, 0x1000).map(0x2000, 0x2000);
    let ran = expect(&setup, COMPLETED, 85);
    assert_eq!(ran.kinds()[..5], [ControlField, SegmentEntry, PageEntry, KeyConsulted, InstructionHalfword]);
    assert!(ran.kinds()[5..21].iter().all(|&kind| kind == VirtualRegister));
    for word in 0..16 {
        assert_eq!(ran.kinds()[21 + 3 * word..24 + 3 * word], [SegmentEntry, PageEntry, KeyConsulted]);
    }
    assert!(ran.kinds()[69..].iter().all(|&kind| kind == Store));
    assert_eq!(ran.bytes.len(), 64);
}

#[test]
fn step_1_control_register_6() {
    for bits_0_3 in 0..16 {
        let setup = Setup::stctl(5, 5).control_register_6(bits_0_3 << 28 | 0x0F00_0007 | MICBLOK);
        if bits_0_3 == 0b1000 || bits_0_3 == 0b1010 {
            expect(&setup, COMPLETED, 6);
        } else {
            expect(&setup, REFUSED, 0);
        }
    }
}

#[test]
fn step_2_miccreg_not_in_storage() {
    expect(&Setup::stctl(5, 5).control_register_6(0x8000_4000), not_in_storage(2), 0);
}

#[test]
fn step_3_second_halfword_as_itself() {
    expect(&Setup::stctl(5, 5).psw_key(1).key(2, 0x28).key(4, 0x10), PROTECTION, 2);
    expect(&Setup::stctl(5, 5).instruction(0x3FFE, 0x3FFE), ADDRESSING, 1);
    let unmapped = Setup::stctl(5, 5).dat(0b10000).map(0x2000, 0x2000).map(0x1000, 0x1000);
    // MICCREG, segment entry, page entry.
    expect(&unmapped.halfword(0x3402, 0x0018), page_translation(0x1002), 3);
}

#[test]
fn step_4_operand_not_on_a_word() {
    for operand in [0x2001, 0x2002, 0x2003, 0xFF_FFFF] {
        expect(&Setup::stctl(5, 5).operand(operand), REFUSED, 3);
    }
    // Before the registers are fetched.
    expect(&Setup::stctl(5, 5).operand(0x2002).word(MICBLOK + 4, 0xFF_FFFF), REFUSED, 3);
}

#[test]
fn step_5_registers_not_in_storage() {
    // Register 0 at 3FFC is in storage, register 1 is not.
    let setup = Setup::stctl(0, 1).word(MICBLOK + 4, 0x3FFC);
    expect(&setup, not_in_storage(5), 4);
    // Register 0 partly outside: no entry.
    expect(&Setup::stctl(0, 1).word(MICBLOK + 4, 0x3FFE), not_in_storage(5), 3);
    // Only named registers are fetched: 15 at FFFFC4 + 3C = 000000, while 0 to 14 would be outside.
    let setup = Setup::stctl(15, 15).word(MICBLOK + 4, 0x00FF_FFC4);
    let ran = expect(&setup.word(0, 0x1122_3344), COMPLETED, 6);
    assert_eq!(ran.named_bytes(3), &[0, 1, 2, 3]);
    // Registers come before the operand's words.
    let setup = Setup::stctl(0, 1).word(MICBLOK + 4, 0x3FFC).operand(0x4000);
    expect(&setup, not_in_storage(5), 4);
    // From 15 on to 0: 15 at 3FFC; 15 at 4000, not in storage; 15 at 000000 and 0 at FFFFC4, not in storage.
    expect(&Setup::stctl(15, 0).word(MICBLOK + 4, 0x3FC0), COMPLETED, 9);
    expect(&Setup::stctl(15, 0).word(MICBLOK + 4, 0x3FC4), not_in_storage(5), 3);
    expect(&Setup::stctl(15, 0).word(MICBLOK + 4, 0x00FF_FFC4), not_in_storage(5), 4);
}

#[test]
fn step_5_words_tested_in_rising_order() {
    // Word 1 protected (block 5), word 0 in block 4 open; PSW key 1. 1 + 2 + 2 + 2 keys.
    let setup = Setup::stctl(0, 1).psw_key(1).key(4, 0x10).key(5, 0x20).operand(0x27FC);
    expect(&setup, PROTECTION, 7);
    // Word 0 protected: one key only.
    let setup = Setup::stctl(0, 1).psw_key(1).key(4, 0x20).key(5, 0x10).operand(0x27FC);
    expect(&setup, PROTECTION, 6);
}

#[test]
fn step_5_carried_address_is_that_of_the_word() {
    // 64K segments, 2K pages. Words at 27FC (page 4) and 2800 (page 5, not valid: bit 13).
    let setup = Setup::stctl(0, 1).operand(0x27FC).dat(0b01000);
    let setup = setup.map(0x1000, 0x1000).map(0x2000, 0x2000).map(0x2800, 0x2800);
    expect(&setup, COMPLETED, 15);
    // 1 + 4 + 2 + 3 + segment and page entry.
    let setup = setup.halfword(0x340A, 0x002C);
    expect(&setup, page_translation(0x2800), 12);
    // Words at 00FFFC and 010000; segment 1 is not valid. 1 + 4 + 2 + 3 + segment entry.
    let setup = Setup::stctl(0, 1).operand(0xFFFC).dat(0b01000);
    let setup = setup.map(0x1000, 0x1000).map(0xFFFC, 0x2000).map(0x10000, 0x2800);
    expect(&setup.word(0x3004, 0xF000_3801), segment_translation(0x1_0000), 11);
}

#[test]
fn step_5_operand_overlaps() {
    // Registers 0 to 2 stored over registers 1 to 3: fetched before they are stored.
    let ran = expect(&Setup::stctl(0, 2).operand(ECBLOK + 4), COMPLETED, 12);
    let first_bytes: Vec<_> = ran.bytes.iter().filter(|change| change.0 % 4 == 0).collect();
    assert_eq!(first_bytes, [&(0x504, 0xA1, 0xA0), &(0x508, 0xA2, 0xA1), &(0x50C, 0xA3, 0xA2)]);
    // Stored over the segment table: 1 + 4 + 1 + 3 + 1.
    let setup = Setup::stctl(0, 0).operand(0x2000).dat(0b10000).map(0x1000, 0x1000).map(0x2000, 0x3000);
    let ran = expect(&setup, COMPLETED, 10);
    assert_eq!(ran.named_bytes(9), &[0x3000, 0x3001, 0x3002, 0x3003]);
    // 2K pages, page table at 37F0. Word 2FFC (page 5, frame 003000) is stored over the entry of page 6 at
    // 37FC; word 3000 (page 6) goes to 002000, found before. 1 + 4 + 2 + 6 + 2.
    let setup = Setup::stctl(6, 7).operand(0x2FFC).dat(0b01000).word(0x3000, 0xF000_37F0);
    let setup = setup.halfword(0x37F4, 0x0010).halfword(0x37FA, 0x0030).halfword(0x37FC, 0x0020);
    let ran = expect(&setup, COMPLETED, 15);
    assert_eq!((ran.named_bytes(13)[0], ran.named_bytes(14)[0]), (0x37FC, 0x2000));
}

#[test]
fn step_5_two_pages_in_one_frame() {
    // Pages 4 and 5 both in frame 002000: words 27FC and 2800 are stored at 0027FC and 002000.
    let setup = Setup::stctl(6, 7).operand(0x27FC).dat(0b01000);
    let setup = setup.map(0x1000, 0x1000).map(0x2000, 0x2000).map(0x2800, 0x2000);
    let ran = expect(&setup, COMPLETED, 15);
    let expected = [
        (0x2000, 0, 0xA7),
        (0x2001, 0, 0xB7),
        (0x2002, 0, 0xC7),
        (0x2003, 0, 0xD7),
        (0x27FC, 0, 0xA6),
        (0x27FD, 0, 0xB6),
        (0x27FE, 0, 0xC6),
        (0x27FF, 0, 0xD6),
    ];
    assert_eq!(ran.bytes, expected);
    assert_eq!(ran.named_bytes(13), &[0x27FC, 0x27FD, 0x27FE, 0x27FF]);
    assert_eq!(ran.named_bytes(14), &[0x2000, 0x2001, 0x2002, 0x2003]);
}

#[test]
fn operand_goes_round_with_dat() {
    // 1M segments, 4K pages: FFFFFC is in segment F, page FF; 000000 in segment 0, page 0. Frames 1 and 2.
    let setup = Setup::stctl(6, 7).operand(0xFF_FFFC).dat(0b10010);
    let setup = setup.map(0xFF_FFFC, 0x1000).map(0, 0x2000).map(0x1000, 0x1000);
    let ran = expect(&setup, COMPLETED, 15);
    let words: Vec<_> = ran.bytes.iter().map(|change| (change.0, change.2)).step_by(4).collect();
    assert_eq!(words, [(0x1FFC, 0xA6), (0x2000, 0xA7)]);
    // Segment 0 without page 0: bit 12. The carried address is 000000. 1 + 4 + 2 + 3 + 2.
    expect(&setup.clone().halfword(0x3800, 0x0028), page_translation(0), 12);
}

#[test]
fn registers_go_round_byte_by_byte_in_16_mib() {
    let setup = Setup::stctl_in(0, 0, 0x100_0000).word(MICBLOK + 4, 0xFF_FFFE);
    let ran = expect(&setup.word(0xFF_FFFE, 0x1122_3344), COMPLETED, 6);
    assert_eq!(ran.named_bytes(3), &[0xFF_FFFE, 0xFF_FFFF, 0, 1]);
    assert_eq!(ran.bytes, [(0x2000, 0, 0x11), (0x2001, 0, 0x22), (0x2002, 0, 0x33), (0x2003, 0, 0x44)]);
}

#[test]
fn every_pair_of_registers() {
    for r1 in 0..16u16 {
        for r3 in 0..16u16 {
            let registers = usize::from(if r3 >= r1 { r3 - r1 + 1 } else { (16 - r1) + (r3 + 1) });
            let ran = expect(&Setup::stctl(r1, r3), COMPLETED, 3 + 3 * registers);
            assert_eq!(ran.named_bytes(3)[0], 0x500 + 4 * u32::from(r1));
            assert_eq!(ran.named_bytes(2 + registers)[0], 0x500 + 4 * u32::from(r3));
        }
    }
}
