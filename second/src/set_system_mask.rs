//! SET SYSTEM MASK.

use crate::access::{fetch_operand_byte, fetch_second_halfword};
use crate::bits::{going_to_one, word_bit, word_bits};
use crate::control_block::{
    fetch_ecblok_address, fetch_micvpsw, fetch_virtual_psw, fetch_virtual_register, VirtualPsw,
};
use crate::ending::Ending;
use crate::guest::Guest;
use crate::machine::Machine;
use crate::references::References;

/// Bits 1 and 5 of byte 0: PER mask and DAT mode.
const BITS_1_5: u8 = 0x44;
/// Bits 0, 2, 3 and 4 of byte 0.
const BITS_0_2_3_4: u8 = 0xB8;
/// Bits 6 and 7 of byte 0.
const BITS_6_7: u8 = 0x03;

pub fn set_system_mask(
    machine: &mut Machine<impl References>,
    guest: &Guest,
    installed: bool,
) -> Result<(), Ending> {
    // (1) Control register 6 bits 0-1 not 10: refuse.
    machine.step = 1;
    if word_bits(guest.control_register_6, 0, 1) != 0b10 {
        return Err(Ending::REFUSE);
    }
    // (2) Fetch MICCREG.
    machine.step = 2;
    let ecblok = fetch_ecblok_address(machine, guest)?;
    // (3) Fetch virtual control register 0.
    machine.step = 3;
    let virtual_control_register_0 = u32::from_be_bytes(fetch_virtual_register(machine, ecblok, 0)?);
    // (4) Its bit 1 one: refuse.
    machine.step = 4;
    if word_bit(virtual_control_register_0, 1) {
        return Err(Ending::REFUSE);
    }
    // (5) Second halfword; an access exception is reported as itself.
    machine.step = 5;
    let second_halfword = fetch_second_halfword(machine, guest)?;
    // (6) Operand byte, likewise.
    machine.step = 6;
    let new = fetch_operand_byte(machine, guest, guest.effective_address(second_halfword))?;
    // (7) MICVPSW.
    machine.step = 7;
    let micvpsw = fetch_micvpsw(machine, guest)?;
    // (8) First halfword of the virtual PSW.
    machine.step = 8;
    let virtual_psw = fetch_virtual_psw(machine, micvpsw)?;
    // (9)
    machine.step = 9;
    check_new_mask(virtual_psw, new, micvpsw.pending, Ending::expanded(installed, guest))?;
    // (10) Store byte 0.
    machine.step = 10;
    machine.store(micvpsw.address, [new]);
    Ok(())
}

/// Step 9; `expanded` is the ending that "expanded" means for this call. In BC mode it plays no part.
fn check_new_mask(virtual_psw: VirtualPsw, new: u8, pending: bool, expanded: Ending) -> Result<(), Ending> {
    let old = virtual_psw.byte_0;
    if virtual_psw.ec_mode {
        let bit_1_or_5_would_change = (old ^ new) & BITS_1_5 != 0;
        let bits_0_2_3_4_not_zero = new & BITS_0_2_3_4 != 0;
        let bit_6_or_7_goes_to_one = going_to_one(old, new) & BITS_6_7 != 0;
        if bit_1_or_5_would_change || bits_0_2_3_4_not_zero || (pending && bit_6_or_7_goes_to_one) {
            return Err(expanded);
        }
    } else if pending && going_to_one(old, new) != 0 {
        return Err(Ending::REFUSE);
    }
    Ok(())
}
