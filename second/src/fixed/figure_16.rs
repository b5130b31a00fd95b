//! Figure 16: fields of STCTL.

use super::layout::*;
use super::FixedList;
use crate::setup::{Setup, OPERAND};

pub fn cases() -> Vec<FixedList> {
    let mut cases = vec![ecblok_address()];
    cases.extend((0..16).map(one_register));
    cases.extend([(5, 5, 1), (15, 0, 2), (14, 0, 3), (0, 15, 16), (1, 0, 16)].map(operand_length));
    cases.push(fields_real());
    cases
}

/// Elsewhere than at offset 4 the ECBLOK address is 700, where register 5 is 11223344.
fn ecblok_address() -> FixedList {
    let setup = around_micblok(Setup::stctl(5, 5), DECOY, &[MICCREG]).word(DECOY + 4 * 5, 0x1122_3344);
    FixedList::one("figure 16: MICCREG at 4", &setup, &[MICCREG])
}

/// Each virtual register alone; its neighbours are other registers, or EE.
fn one_register(number: u16) -> FixedList {
    let mut setup = Setup::stctl(number, number);
    setup = setup.word(0x4F8, 0xEEEE_EEEE).word(0x4FC, 0xEEEE_EEEE);
    setup = setup.word(0x540, 0xEEEE_EEEE).word(0x544, 0xEEEE_EEEE);
    let offset = 4 * number;
    let case = format!("figure 16: EXTCR{number} at {offset:X}");
    FixedList::one(&case, &setup, &[extcr(u32::from(number))])
}

/// 4n bytes for n registers, between bytes EE that stay.
fn operand_length((r1, r3, registers): (u16, u16, u32)) -> FixedList {
    let setup =
        Setup::stctl(r1, r3).word(OPERAND - 4, 0xEEEE_EEEE).word(OPERAND + 4 * registers, 0xEEEE_EEEE);
    let case = format!("figure 16: operand of 4n bytes, R1={r1}, R3={r3}, n={registers}");
    FixedList::one(&case, &setup, &[])
}

fn fields_real() -> FixedList {
    FixedList::one("figure 16: DAT on, fields real, operand logical", &translated(Setup::stctl(5, 5)), &[])
}
