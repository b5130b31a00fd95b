//! Figures 17 and 18: fields of STNSM and STOSM.

use super::layout::*;
use super::FixedList;
use crate::setup::{Setup, VIRTUAL_BC, VIRTUAL_EC};

pub fn cases() -> Vec<FixedList> {
    let mut cases = store_then_and();
    cases.extend(store_then_or());
    cases
}

/// Elsewhere than at offset 8 the virtual PSW's address is 700, where it is 5A08.
fn misplaced(setup: Setup) -> Setup {
    around_micblok(setup, DECOY, &[MICVPSW]).word(DECOY, 0x5A08_0000)
}

fn store_then_and() -> Vec<FixedList> {
    let stnsm = Setup::stnsm([0x47, VIRTUAL_EC], 0xFC);
    let ec = around(Setup::stnsm([0x47, VIRTUAL_EC], 0x00), VMPSW, 0x00).expanded().switched_on();
    let bc = around(Setup::stnsm([0x47, VIRTUAL_BC], 0x00), VMPSW, 0x4C);
    let operand = around(stnsm.clone(), OPERAND_BYTE, 0xEE);
    vec![
        FixedList::one("figure 17: MICVPSW at 8", &misplaced(stnsm.clone()), &[MICVPSW]),
        FixedList::one("figure 17: VMPSW of 2 bytes at 0, EC, neighbours 00", &ec, &[VMPSW]),
        FixedList::one("figure 17: VMPSW of 2 bytes at 0, BC, neighbours 4C", &bc, &[VMPSW]),
        FixedList::one("figure 17: operand of 1 byte", &operand, &[]),
        FixedList::one("figure 17: DAT on, fields real, operand logical", &translated(stnsm), &[]),
    ]
}

fn store_then_or() -> Vec<FixedList> {
    let stosm = Setup::stosm([0x04, VIRTUAL_EC], 0x03);
    let ec = around(Setup::stosm([0x04, VIRTUAL_EC], 0x40), VMPSW, 0x00).expanded().switched_on();
    let bc = around(Setup::stosm([0x04, VIRTUAL_BC], 0x83), VMPSW, 0x4C);
    let operand = around(stosm.clone(), OPERAND_BYTE, 0xEE);
    let mask = stosm.clone().expanded().switched_on();
    let not_pending = around_micblok(mask.clone(), 0x8000_0000 | DECOY, &[MICVPSW]);
    let pending = around_micblok(mask, DECOY, &[MICVPSW]).pending();
    vec![
        FixedList::one("figure 18: MICVPSW at 8", &misplaced(stosm.clone()), &[MICVPSW]),
        FixedList::one("figure 18: MICVPSW bit 0 zero among ones: not pending", &not_pending, &[]),
        FixedList::one("figure 18: MICVPSW bit 0 one among zeros: pending", &pending, &[]),
        FixedList::one("figure 18: VMPSW of 2 bytes at 0, EC, neighbours 00", &ec, &[VMPSW]),
        FixedList::one("figure 18: VMPSW of 2 bytes at 0, BC, neighbours 4C", &bc, &[VMPSW]),
        FixedList::one("figure 18: operand of 1 byte", &operand, &[]),
        FixedList::one("figure 18: DAT on, fields real, operand logical", &translated(stosm), &[]),
    ]
}
