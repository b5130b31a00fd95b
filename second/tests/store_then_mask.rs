//! STNSM and STOSM, step by step.

mod common;

use common::*;
use second::setup::{Setup, MICBLOK, VIRTUAL_BC, VIRTUAL_EC, VIRTUAL_PSW};
use second::ReferenceKind::*;

/// One set-up of each that completes.
fn both() -> [Setup; 2] {
    [Setup::stnsm([0x07, VIRTUAL_EC], 0xFC), Setup::stosm([0x04, VIRTUAL_EC], 0x03)]
}

#[test]
fn list_of_references() {
    for setup in both() {
        let ran = expect(&setup, COMPLETED, 7);
        let kinds =
            [ControlField, ControlField, KeyConsulted, InstructionHalfword, KeyConsulted, Store, Store];
        assert_eq!(ran.kinds(), kinds);
        assert_eq!(ran.named_bytes(0), &[0x408, 0x409, 0x40A, 0x40B]);
        assert_eq!(ran.named_bytes(1), &[0x600, 0x601]);
        assert_eq!(ran.named_key(2), Some(2));
        assert_eq!(ran.named_bytes(3), &[0x1002, 0x1003]);
        assert_eq!(ran.named_key(4), Some(4));
        assert_eq!((ran.named_bytes(5), ran.named_bytes(6)), (&[0x2000][..], &[0x600][..]));
    }
}

#[test]
fn step_1_control_register_6() {
    for setup in both() {
        for bits_0_3 in 0..16 {
            let setup = setup.clone().control_register_6(bits_0_3 << 28 | 0x0F00_0007 | MICBLOK);
            if bits_0_3 == 0b1000 || bits_0_3 == 0b1010 {
                expect(&setup, COMPLETED, 7);
            } else {
                expect(&setup, REFUSED, 0);
            }
        }
    }
}

#[test]
fn steps_2_and_3_not_in_storage() {
    for setup in both() {
        expect(&setup.clone().control_register_6(0x8000_4000), not_in_storage(2), 0);
        // MICBLOK at 3FF8: MICVPSW would be at 4000.
        expect(&setup.clone().control_register_6(0x8000_3FF8), not_in_storage(2), 0);
        // MICBLOK at FFFFF8: MICVPSW is at 000000.
        let round = setup.clone().control_register_6(0x80FF_FFF8).word(0, VIRTUAL_PSW);
        let ran = expect(&round, COMPLETED, 7);
        assert_eq!(ran.named_bytes(0), &[0, 1, 2, 3]);
        for address in [0x4000, 0x3FFF, 0xFF_FFFF, 0xFF_FFFE] {
            expect(&setup.clone().word(MICBLOK + 8, address), not_in_storage(3), 1);
        }
    }
}

#[test]
fn virtual_psw_goes_round_in_16_mib() {
    for (setup, old, new) in [(&both()[0], 0x07, 0x04), (&both()[1], 0x04, 0x07)] {
        let setup = setup.clone().size(0x100_0000).word(MICBLOK + 8, 0xFF_FFFF);
        let setup = setup.halfword(0xFF_FFFF, u16::from(old) << 8 | 0x08);
        let ran = expect(&setup, COMPLETED, 7);
        assert_eq!(ran.named_bytes(1), &[0xFF_FFFF, 0]);
        assert_eq!(ran.bytes, [(0x2000, 0, old), (0xFF_FFFF, old, new)]);
    }
}

#[test]
fn step_4_and() {
    // Old, immediate, ending in EC mode. BC mode always goes on.
    for (old, immediate, ec) in [
        (0x44, 0xBF, EXPANDED),
        (0x44, 0xFB, EXPANDED),
        (0x40, 0xBF, EXPANDED),
        (0x04, 0xFB, EXPANDED),
        (0xFF, 0x00, EXPANDED),
        (0xFF, 0x44, COMPLETED),
        (0xBB, 0x00, COMPLETED),
        (0x00, 0x00, COMPLETED),
        (0x44, 0x44, COMPLETED),
    ] {
        let count = |ending: (u32, u32, u32)| if ending == COMPLETED { 7 } else { 2 };
        // The pending bit plays no part in STNSM.
        expect_mask(&Setup::stnsm([old, VIRTUAL_EC], immediate), ec, ec, count);
        let bc = Setup::stnsm([old, VIRTUAL_BC], immediate).pending().expanded().switched_on();
        let ran = expect(&bc, COMPLETED, 7);
        let stored: Vec<u8> = ran.bytes.iter().map(|change| change.2).collect();
        if old & immediate != old {
            assert_eq!(stored, [old & immediate, old]);
        }
    }
}

#[test]
fn step_4_or() {
    // Old, immediate, ending in EC mode not pending, in BC mode not pending, pending in either mode.
    for (old, immediate, ec, bc, pending) in [
        (0x7F, 0x80, EXPANDED, COMPLETED, EXPANDED),
        (0xBF, 0x40, EXPANDED, COMPLETED, EXPANDED),
        (0xDF, 0x20, EXPANDED, COMPLETED, EXPANDED),
        (0xEF, 0x10, EXPANDED, COMPLETED, EXPANDED),
        (0xF7, 0x08, EXPANDED, COMPLETED, EXPANDED),
        (0xFB, 0x04, EXPANDED, COMPLETED, EXPANDED),
        (0xFD, 0x02, COMPLETED, COMPLETED, EXPANDED),
        (0xFE, 0x01, COMPLETED, COMPLETED, EXPANDED),
        (0xFF, 0xFF, COMPLETED, COMPLETED, COMPLETED),
        (0x81, 0x80, COMPLETED, COMPLETED, COMPLETED),
        (0x55, 0x00, COMPLETED, COMPLETED, COMPLETED),
    ] {
        let count = |ending: (u32, u32, u32)| if ending == COMPLETED { 7 } else { 2 };
        for (second_byte, quiet) in [(VIRTUAL_EC, ec), (VIRTUAL_BC, bc)] {
            expect_mask(&Setup::stosm([old, second_byte], immediate), quiet, pending, count);
        }
    }
}

#[test]
fn step_5_any_access_exception_refuses() {
    for setup in both() {
        let setup = setup.expanded().switched_on();
        expect(&setup.clone().instruction(0x3FFE, 0x3FFE), REFUSED, 2);
        expect(&setup.clone().psw_key(1).key(2, 0x28).key(4, 0x10), REFUSED, 3);
        // DAT: format (no entry), segment invalid (1), page entry outside (1), page invalid (2), format (2).
        let mapped = setup.clone().dat(0b10000).map(0x1000, 0x1000).map(0x2000, 0x2000);
        expect(&setup.clone().dat(0b11000), REFUSED, 2);
        expect(&mapped.clone().word(0x3000, 0xF000_3401), REFUSED, 3);
        expect(&mapped.clone().word(0x3000, 0xF000_4000), REFUSED, 3);
        expect(&mapped.clone().word(0x3000, 0x0000_3400), REFUSED, 3);
        expect(&mapped.clone().halfword(0x3402, 0x0018), REFUSED, 4);
        expect(&mapped.clone().halfword(0x3402, 0x0012), REFUSED, 4);
        // Real address outside storage: no key entry.
        expect(&mapped.clone().halfword(0x3402, 0x0040), REFUSED, 4);
    }
}

#[test]
fn step_6_operand_as_itself() {
    for setup in both() {
        expect(&setup.clone().operand(0x4000), ADDRESSING, 4);
        // A store needs the key to match even if the fetch bit is zero.
        expect(&setup.clone().psw_key(1).key(4, 0x20), PROTECTION, 5);
        // The operand's page 2; the carried address is that of the byte. 2 + 4 + segment and page entry.
        let mapped = setup.clone().dat(0b10000).map(0x1000, 0x1000).map(0x2000, 0x2000).operand(0x2345);
        expect(&mapped, COMPLETED, 11);
        expect(&mapped.clone().halfword(0x3404, 0x0028), page_translation(0x2345), 8);
        expect(&mapped.clone().halfword(0x3404, 0x0022), SPECIFICATION, 8);
        // Segment 1 is zero in the table but for its invalid bit.
        let mapped = mapped.operand(0x1_2345).word(0x3004, 0x0000_0001);
        expect(&mapped, segment_translation(0x1_2345), 7);
    }
}

#[test]
fn step_7_operand_stored_first() {
    // Operand and virtual PSW byte 0 are the same byte through translation: the new byte stays.
    let setup = Setup::stnsm([0x07, VIRTUAL_EC], 0xFC).dat(0b10000).map(0x1000, 0x1000);
    let setup = setup.map(0x5000, 0).operand(0x5600);
    let ran = expect(&setup, COMPLETED, 11);
    assert_eq!((ran.named_bytes(9), ran.named_bytes(10)), (&[0x600][..], &[0x600][..]));
    assert_eq!(ran.bytes, [(0x600, 0x07, 0x04)]);
}

#[test]
fn effective_address() {
    // Base 0 means zero: register 0 is not used.
    let mut setup = Setup::stnsm([0x07, VIRTUAL_EC], 0xFC).halfword(0x1002, 0x0ABC);
    setup.guest.general_registers[0] = 0x0000_1000;
    assert_eq!(expect(&setup, COMPLETED, 7).named_bytes(5), &[0xABC]);
    // Bits 0-7 of the base are ignored; the sum goes round: FFFFFF + FFF = 000FFE.
    let mut setup = Setup::stnsm([0x07, VIRTUAL_EC], 0xFC).halfword(0x1002, 0xFFFF);
    setup.guest.general_registers[15] = 0xFFFF_FFFF;
    assert_eq!(expect(&setup, COMPLETED, 7).named_bytes(5), &[0xFFE]);
}
