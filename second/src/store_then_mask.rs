//! STORE THEN AND SYSTEM MASK, STORE THEN OR SYSTEM MASK.

use crate::access::{fetch_second_halfword, test_store};
use crate::bits::{going_to_one, going_to_zero};
use crate::control_block::{fetch_micvpsw, fetch_virtual_psw, VirtualPsw};
use crate::ending::Ending;
use crate::guest::Guest;
use crate::machine::Machine;
use crate::references::References;
use crate::store_control::bits_0_3_are_10x0;

/// Bits 1 and 5 of byte 0: PER mask and DAT mode.
const BITS_1_5: u8 = 0x44;
/// Bits 0 to 5 of byte 0.
const BITS_0_TO_5: u8 = 0xFC;

/// Which of the two instructions.
#[derive(Clone, Copy, PartialEq, Eq)]
pub enum Connective {
    And,
    Or,
}

impl Connective {
    fn apply(self, old: u8, immediate: u8) -> u8 {
        match self {
            Connective::And => old & immediate,
            Connective::Or => old | immediate,
        }
    }
}

pub fn store_then_mask(
    machine: &mut Machine<impl References>,
    guest: &Guest,
    connective: Connective,
    immediate: u8,
    installed: bool,
) -> Result<(), Ending> {
    // (1) As STCTL.
    machine.step = 1;
    if !bits_0_3_are_10x0(guest.control_register_6) {
        return Err(Ending::REFUSE);
    }
    // (2) MICVPSW.
    machine.step = 2;
    let micvpsw = fetch_micvpsw(machine, guest)?;
    // (3) First halfword of the virtual PSW.
    machine.step = 3;
    let virtual_psw = fetch_virtual_psw(machine, micvpsw)?;
    // (4) New byte is old AND, or OR, the immediate.
    machine.step = 4;
    let old = virtual_psw.byte_0;
    let new = connective.apply(old, immediate);
    if needs_expanded(connective, virtual_psw, new, micvpsw.pending) {
        return Err(Ending::expanded(installed, guest));
    }
    // (5) Second halfword; any access exception: refuse.
    machine.step = 5;
    let Ok(second_halfword) = fetch_second_halfword(machine, guest) else {
        return Err(Ending::REFUSE);
    };
    // (6) Test operand for store, exception as itself.
    machine.step = 6;
    let operand = guest.effective_address(second_halfword);
    let real_address = test_store::<1>(machine, guest, operand)?;
    // (7) Store the old byte at the operand, then the new byte as virtual PSW byte 0; no other byte.
    machine.step = 7;
    machine.store(real_address, [old]);
    machine.store(micvpsw.address, [new]);
    Ok(())
}

/// The conditions of step 4. STNSM does not look at the pending bit.
fn needs_expanded(connective: Connective, virtual_psw: VirtualPsw, new: u8, pending: bool) -> bool {
    let old = virtual_psw.byte_0;
    match connective {
        Connective::And => virtual_psw.ec_mode && going_to_zero(old, new) & BITS_1_5 != 0,
        Connective::Or => {
            (virtual_psw.ec_mode && going_to_one(old, new) & BITS_0_TO_5 != 0)
                || (pending && going_to_one(old, new) != 0)
        }
    }
}
