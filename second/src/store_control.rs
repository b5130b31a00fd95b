//! STORE CONTROL.

use crate::access::{fetch_second_halfword, test_store};
use crate::address::add;
use crate::bits::{halfword_bits, word_bits};
use crate::control_block::{fetch_ecblok_address, fetch_virtual_register};
use crate::ending::Ending;
use crate::guest::Guest;
use crate::machine::Machine;
use crate::references::References;

pub fn store_control(
    machine: &mut Machine<impl References>,
    guest: &Guest,
    first_halfword: u16,
) -> Result<(), Ending> {
    // (1) Control register 6 bits 0-3 not 10X0: refuse.
    machine.step = 1;
    if !bits_0_3_are_10x0(guest.control_register_6) {
        return Err(Ending::REFUSE);
    }
    // (2) MICCREG.
    machine.step = 2;
    let ecblok = fetch_ecblok_address(machine, guest)?;
    // (3) Second halfword, as itself.
    machine.step = 3;
    let second_halfword = fetch_second_halfword(machine, guest)?;
    // (4) Operand not on a word: refuse.
    machine.step = 4;
    let operand = guest.effective_address(second_halfword);
    if !operand.is_multiple_of(4) {
        return Err(Ending::REFUSE);
    }
    // (5) Fetch the named registers, then test every operand word, only then store.
    machine.step = 5;
    let count = number_of_registers(first_halfword);
    let mut values = [[0; 4]; 16];
    for (value, number) in values.iter_mut().zip(named_registers(first_halfword)) {
        *value = fetch_virtual_register(machine, ecblok, number)?;
    }
    let mut real_addresses = [0; 16];
    for (real_address, position) in real_addresses.iter_mut().zip(0..count) {
        *real_address = test_store::<4>(machine, guest, add(operand, 4 * position))?;
    }
    for (&real_address, &value) in real_addresses.iter().zip(&values).take(count as usize) {
        machine.store(real_address, value);
    }
    Ok(())
}

/// Bits 0-3 of control register 6 are 10X0 (STCTL, STNSM and STOSM step 1).
#[inline]
pub fn bits_0_3_are_10x0(control_register_6: u32) -> bool {
    word_bits(control_register_6, 0, 3) & 0b1101 == 0b1000
}

/// The number of registers from R1 up to R3; the register after 15 is register 0.
fn number_of_registers(first_halfword: u16) -> u32 {
    let r1 = halfword_bits(first_halfword, 8, 11);
    let r3 = halfword_bits(first_halfword, 12, 15);
    (r3.wrapping_sub(r1) & 15) + 1
}

/// From R1 up to R3.
fn named_registers(first_halfword: u16) -> impl Iterator<Item = u32> {
    let r1 = halfword_bits(first_halfword, 8, 11);
    (0..number_of_registers(first_halfword)).map(move |position| (r1 + position) & 15)
}
