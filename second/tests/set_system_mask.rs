//! SSM, step by step.

mod common;

use common::*;
use second::setup::{Setup, ECBLOK, MICBLOK, VIRTUAL_BC, VIRTUAL_EC, VIRTUAL_PSW};
use second::ReferenceKind::*;

fn ssm() -> Setup {
    Setup::ssm([0x04, VIRTUAL_EC], 0x07)
}

#[test]
fn list_of_references() {
    let ran = expect(&ssm().key(2, 0x01), COMPLETED, 9);
    let kinds = [
        ControlField,
        VirtualRegister,
        KeyConsulted,
        InstructionHalfword,
        KeyConsulted,
        OperandByte,
        ControlField,
        ControlField,
        Store,
    ];
    assert_eq!(ran.kinds(), kinds);
    assert_eq!(ran.named_bytes(0), &[0x404, 0x405, 0x406, 0x407]);
    assert_eq!(ran.named_bytes(1), &[0x500, 0x501, 0x502, 0x503]);
    assert_eq!((ran.named_bytes(2), ran.named_key(2)), (&[][..], Some(2)));
    assert_eq!(ran.named_bytes(3), &[0x1002, 0x1003]);
    assert_eq!(ran.named_key(4), Some(4));
    assert_eq!(ran.named_bytes(5), &[0x2000]);
    assert_eq!(ran.named_bytes(6), &[0x408, 0x409, 0x40A, 0x40B]);
    assert_eq!(ran.named_bytes(7), &[0x600, 0x601]);
    assert_eq!(ran.named_bytes(8), &[0x600]);
    assert_eq!(ran.bytes, [(0x600, 0x04, 0x07)]);
}

#[test]
fn step_1_control_register_6() {
    for bits_0_3 in 0..16 {
        let setup = ssm().control_register_6(bits_0_3 << 28 | MICBLOK);
        if bits_0_3 >> 2 == 0b10 {
            expect(&setup, COMPLETED, 9);
        } else {
            expect(&setup, REFUSED, 0);
        }
    }
    // Bits 2-7 and 29-31 do not matter to a call that completes.
    expect(&ssm().control_register_6(0xBF00_0007 | MICBLOK), COMPLETED, 9);
}

#[test]
fn immediate_is_ignored() {
    let mut setup = ssm();
    setup.first_halfword = 0x80FF;
    expect(&setup, COMPLETED, 9);
}

#[test]
fn steps_2_3_7_8_not_in_storage() {
    expect(&ssm().control_register_6(0x8000_4000), not_in_storage(2), 0);
    expect(&ssm().control_register_6(0x80FF_FFF8), not_in_storage(2), 0);
    for address in [0x4000, 0x3FFF, 0x3FFE, 0x3FFD, 0xFF_FFFE] {
        expect(&ssm().word(MICBLOK + 4, address), not_in_storage(3), 1);
    }
    // MICBLOK at 3FF8: MICVPSW would be at 4000. MICCREG, register 0, halfword 2, operand byte 2.
    let top = ssm().control_register_6(0x8000_3FF8).word(0x3FFC, ECBLOK);
    expect(&top, not_in_storage(7), 6);
    for address in [0x4000, 0x3FFF, 0xFF_FFFF] {
        expect(&ssm().word(MICBLOK + 8, address), not_in_storage(8), 7);
    }
    // Bits 0-7 of MICCREG are no part of the address.
    expect(&ssm().word(MICBLOK + 4, 0xFF00_0000 | ECBLOK), COMPLETED, 9);
}

#[test]
fn step_4_virtual_register_0_bit_1() {
    expect(&ssm().word(ECBLOK, 0x4000_0000), REFUSED, 2);
    expect(&ssm().word(ECBLOK, 0x4000_0000).expanded().switched_on(), REFUSED, 2);
    expect(&ssm().word(ECBLOK, 0xBFFF_FFFF), COMPLETED, 9);
    // Real control register 0 bit 1 has no effect.
    let mut setup = ssm();
    setup.guest.control_register_0 = 0x4000_0000;
    expect(&setup, COMPLETED, 9);
}

#[test]
fn steps_5_and_6_access_exceptions_as_themselves() {
    // 2 fields + key of the halfword.
    expect(&ssm().psw_key(1).key(2, 0x28), PROTECTION, 3);
    expect(&ssm().instruction(0x3FFE, 0x3FFE), ADDRESSING, 2);
    // 2 fields + halfword 2 + key of the operand.
    expect(&ssm().psw_key(1).key(4, 0x28), PROTECTION, 5);
    expect(&ssm().operand(0x4000), ADDRESSING, 4);
    // The operand comes before MICVPSW.
    expect(&ssm().operand(0x4000).word(MICBLOK + 8, 0xFF_FFFF), ADDRESSING, 4);
}

#[test]
fn step_9_ec_mode() {
    // Old, new, ending without and with a pending interruption.
    let cases = [
        (0x00, 0x80, EXPANDED, EXPANDED),
        (0x00, 0x40, EXPANDED, EXPANDED),
        (0x00, 0x20, EXPANDED, EXPANDED),
        (0x00, 0x10, EXPANDED, EXPANDED),
        (0x00, 0x08, EXPANDED, EXPANDED),
        (0x00, 0x04, EXPANDED, EXPANDED),
        (0x00, 0x02, COMPLETED, EXPANDED),
        (0x00, 0x01, COMPLETED, EXPANDED),
        (0x00, 0x00, COMPLETED, COMPLETED),
        (0x44, 0x44, COMPLETED, COMPLETED),
        (0x44, 0x40, EXPANDED, EXPANDED),
        (0x44, 0x04, EXPANDED, EXPANDED),
        (0x44, 0x47, COMPLETED, EXPANDED),
        (0x46, 0x47, COMPLETED, EXPANDED),
        (0x45, 0x46, COMPLETED, EXPANDED),
        (0x47, 0x44, COMPLETED, COMPLETED),
        // Old bits 0, 2, 3 and 4 may be one; the new ones may not stay so.
        (0xFF, 0x47, COMPLETED, COMPLETED),
        (0x80, 0x80, EXPANDED, EXPANDED),
    ];
    for (old, new, quiet, pending) in cases {
        let count = |ending: (u32, u32, u32)| if ending.0 == 0 { 9 } else { 8 };
        expect_mask(&Setup::ssm([old, VIRTUAL_EC], new), quiet, pending, count);
    }
}

#[test]
fn step_9_bc_mode() {
    for (old, new, pending) in [
        (0x00, 0xFF, REFUSED),
        (0xFE, 0xFF, REFUSED),
        (0x7F, 0x80, REFUSED),
        (0xFF, 0xFF, COMPLETED),
        (0xFF, 0x80, COMPLETED),
        (0xFF, 0x00, COMPLETED),
        (0xA5, 0xA4, COMPLETED),
        (0xA5, 0xA6, REFUSED),
    ] {
        let setup = Setup::ssm([old, VIRTUAL_BC], new);
        // The expanded assist plays no part.
        let installed = setup.clone().expanded();
        for setup in [setup.clone(), setup.switched_on(), installed.clone(), installed.switched_on()] {
            expect(&setup, COMPLETED, 9);
            expect(&setup.pending(), pending, if pending == COMPLETED { 9 } else { 8 });
        }
    }
}

#[test]
fn step_10_only_byte_0_is_stored() {
    let ran = expect(&Setup::ssm([0x00, VIRTUAL_BC], 0xC3), COMPLETED, 9);
    assert_eq!(ran.bytes, [(VIRTUAL_PSW, 0x00, 0xC3)]);
    // An odd virtual PSW address is used as it is.
    let odd = Setup::ssm([0, 0], 0xC3).word(MICBLOK + 8, 0x701).halfword(0x701, 0x11F7);
    let ran = expect(&odd, COMPLETED, 9);
    assert_eq!(ran.named_bytes(7), &[0x701, 0x702]);
    assert_eq!(ran.bytes, [(0x701, 0x11, 0xC3)]);
}
