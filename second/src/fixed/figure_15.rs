//! Figure 15: fields of SSM.

use super::layout::*;
use super::FixedList;
use crate::setup::{Setup, VIRTUAL_BC, VIRTUAL_EC};

pub fn cases() -> Vec<FixedList> {
    let mut cases = register_cases();
    cases.extend(address_cases());
    cases.extend(virtual_psw_cases());
    cases.extend(operand_cases());
    cases
}

/// EXTCR0 bit 1 zero among ones, and one among zeros.
fn register_cases() -> Vec<FixedList> {
    // Old 47 as a register's byte 0 has bit 1 one, old 04 has not.
    let zero = Setup::ssm([0x47, VIRTUAL_EC], 0x45);
    let zero = around_micblok(zero, DECOY, &[MICCREG, MICVPSW]);
    let zero = around(zero, extcr(0), 0xFF).word(extcr(0).address, 0xBFFF_FFFF);
    // Where a MICCREG out of place leads: 700, 000000 and 000005.
    let zero = zero.word(DECOY, 0xFFFF_FFFF).word(0, 0xFFFF_FFFF).word(4, 0xFFFF_FFFF).word(8, 0xFFFF_FFFF);
    let one = Setup::ssm([0x04, VIRTUAL_EC], 0x05);
    let one = around_micblok(one, DECOY, &[MICCREG, MICVPSW]);
    let one = around(one, extcr(0), 0x00).word(extcr(0).address, 0x4000_0000);
    vec![
        FixedList::one("figure 15: MICCREG at 4", &zero, &[MICCREG]),
        FixedList::one("figure 15: EXTCR0 at 0, bit 1 zero among ones", &zero, &[MICCREG, extcr(0)]),
        FixedList::one("figure 15: EXTCR0 at 0, bit 1 one among zeros", &one, &[MICCREG, extcr(0)]),
    ]
}

/// MICVPSW: its address, and its bit 0 (pending).
fn address_cases() -> Vec<FixedList> {
    // A virtual PSW anywhere else is EC with bits 1 and 5 zero, which SSM of 45 would change.
    let place = Setup::ssm([0x47, VIRTUAL_EC], 0x45);
    let place = around_micblok(place, DECOY, &[MICCREG, MICVPSW]).word(DECOY, 0xBBBB_BBBB);
    let place = around(place, extcr(0), 0xBB).word(extcr(0).address, 0xBBBB_BBBB);
    let place = place.word(0, 0xBBBB_BBBB).word(4, 0xBBBB_BBBB).word(8, 0xBBBB_BBBB);
    let mask = Setup::ssm([0x04, VIRTUAL_EC], 0x07).expanded().switched_on();
    let not_pending = around_micblok(mask.clone(), 0x8000_0000 | DECOY, &[MICCREG, MICVPSW]);
    let not_pending = not_pending.word(MICCREG.address, 0x8000_0500).word(0x500, 0x8000_0000);
    let pending = around_micblok(mask, DECOY, &[MICCREG, MICVPSW]).pending();
    vec![
        FixedList::one("figure 15: MICVPSW at 8", &place, &[MICVPSW]),
        FixedList::one("figure 15: MICVPSW bit 0 zero among ones: not pending", &not_pending, &[]),
        FixedList::one("figure 15: MICVPSW bit 0 one among zeros: pending", &pending, &[]),
    ]
}

/// Two bytes: bit 12 of the second decides between EC and BC mode.
fn virtual_psw_cases() -> Vec<FixedList> {
    let ec = around(Setup::ssm([0x4F, VIRTUAL_EC], 0x45), VMPSW, 0xBB);
    let bc = around(Setup::ssm([0xFF, VIRTUAL_BC], 0x00).pending(), VMPSW, 0x4C);
    vec![
        FixedList::one("figure 15: VMPSW of 2 bytes at 0, EC, neighbours BB", &ec, &[VMPSW]),
        FixedList::one("figure 15: VMPSW of 2 bytes at 0, BC, neighbours 4C", &bc, &[VMPSW]),
    ]
}

fn operand_cases() -> Vec<FixedList> {
    let byte = around(Setup::ssm([0x47, VIRTUAL_EC], 0x45), OPERAND_BYTE, 0xBA);
    // The operand is at the real address 006000.
    let mut logical = translated(Setup::ssm([0x47, VIRTUAL_EC], 0xBA));
    logical.image.put(0x6000, &[0x45]);
    vec![
        FixedList::one("figure 15: operand of 1 byte", &byte, &[OPERAND_BYTE]),
        FixedList::one("figure 15: DAT on, fields real, operand logical", &logical, &[]),
    ]
}
