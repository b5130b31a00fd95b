//! RESET REFERENCE BIT (document 02, R-4), by the steps of document 002.

use crate::access::fetch_second_halfword;
use crate::bits::{word_bit, word_bits};
use crate::ending::Ending;
use crate::guest::Guest;
use crate::machine::{Machine, KEY_CHANGE, KEY_REFERENCE};
use crate::real_page::{RealPage, Tried};
use crate::references::References;

/// Gives the record with the condition code.
pub fn reset_reference_bit(machine: &mut Machine<impl References>, guest: &Guest) -> Result<Guest, Ending> {
    // 1. Control register 6 bits 0-3 not 10X0: refuse.
    machine.step = 1;
    if word_bits(guest.control_register_6, 0, 1) != 0b10 || word_bit(guest.control_register_6, 3) {
        return Err(Ending::REFUSE);
    }
    let mut tried = Tried::default();
    // 2 and 3.
    let micrseg = tried.micrseg(machine, guest)?;
    // 4. Second halfword; an access exception is reported as itself.
    machine.step = 4;
    let address = guest.effective_address(fetch_second_halfword(machine, guest)?);
    // 5 to 11.
    let page = RealPage::find(machine, &mut tried, micrseg, address, 5)?;
    // 12. If valid, the key's reference and change bits are fetched, and its reference bit is set to zero.
    machine.step = 12;
    let real_key = match page.real_address {
        Some(real_address) => {
            let key = tried.key(machine, real_address)?;
            machine.set_key(real_address, key & !KEY_REFERENCE);
            key
        }
        None => 0,
    };
    // 13.
    machine.step = 13;
    let real = Bits { reference: real_key & KEY_REFERENCE != 0, change: real_key & KEY_CHANGE != 0 };
    let (swap_word, condition_code) =
        reset(page.swap_word, real, &POSITIONS[usize::from(word_bit(address, 20))]);
    machine.store(page.swap_address, swap_word.to_be_bytes());
    Ok(guest.with_condition_code(condition_code))
}

/// A reference bit and a change bit.
#[derive(Clone, Copy, Debug, PartialEq, Eq)]
struct Bits {
    reference: bool,
    change: bool,
}

/// Figure 10: bit positions in the swap-table word.
struct Positions {
    backup_reference: u32,
    backup_change: u32,
    virtual_reference: u32,
    virtual_change: u32,
}

/// By bit 20 of the second-operand address.
const POSITIONS: [Positions; 2] = [
    Positions { backup_reference: 4, backup_change: 5, virtual_reference: 21, virtual_change: 22 },
    Positions { backup_reference: 6, backup_change: 7, virtual_reference: 29, virtual_change: 30 },
];

/// The new swap-table word, and the condition code: twice the reference value and the change value.
fn reset(swap_word: u32, real: Bits, positions: &Positions) -> (u32, u32) {
    let one_at = |position: u32| 0x8000_0000u32 >> position;
    let reference = real.reference || word_bit(swap_word, positions.virtual_reference);
    let change = real.change || word_bit(swap_word, positions.virtual_change);
    let mut new = swap_word & !one_at(positions.virtual_reference);
    if real.reference {
        new |= one_at(positions.backup_reference);
    }
    if real.change {
        new |= one_at(positions.backup_change);
    }
    (new, 2 * u32::from(reference) + u32::from(change))
}

#[cfg(test)]
mod tests {
    use super::*;

    #[test]
    fn three_bits_and_the_code() {
        let real = |reference, change| Bits { reference, change };
        // Bit 20 zero: backup 08000000 and 04000000, virtual 00000400 and 00000200.
        assert_eq!(reset(0, real(false, false), &POSITIONS[0]), (0, 0));
        assert_eq!(reset(0, real(false, true), &POSITIONS[0]), (0x0400_0000, 1));
        assert_eq!(reset(0, real(true, false), &POSITIONS[0]), (0x0800_0000, 2));
        assert_eq!(reset(0, real(true, true), &POSITIONS[0]), (0x0C00_0000, 3));
        assert_eq!(reset(0x0000_0400, real(false, false), &POSITIONS[0]), (0, 2));
        assert_eq!(reset(0x0000_0200, real(false, false), &POSITIONS[0]), (0x0000_0200, 1));
        assert_eq!(reset(0xFFFF_FFFF, real(false, false), &POSITIONS[0]), (0xFFFF_FBFF, 3));
        assert_eq!(reset(0xFFFF_F9FF, real(false, false), &POSITIONS[0]), (0xFFFF_F9FF, 0));
        // Bit 20 one: backup 02000000 and 01000000, virtual 00000004 and 00000002.
        assert_eq!(reset(0, real(true, true), &POSITIONS[1]), (0x0300_0000, 3));
        assert_eq!(reset(0xFFFF_FFFF, real(false, false), &POSITIONS[1]), (0xFFFF_FFFB, 3));
        assert_eq!(reset(0xFFFF_FFF9, real(false, false), &POSITIONS[1]), (0xFFFF_FFF9, 0));
    }
}
