//! INSERT STORAGE KEY (document 02, R-4), by the steps of document 002.

use crate::address::add;
use crate::bits::{halfword_bit, halfword_bits, word_bit, word_bits};
use crate::ending::Ending;
use crate::guest::Guest;
use crate::machine::{Machine, KEY_CHANGE, KEY_REFERENCE};
use crate::real_page::{RealPage, Tried};
use crate::references::References;

/// Virtual key bits 0-4: access and fetch protection. They go to register bits 24-28.
const ACCESS_AND_FETCH: u8 = 0xF8;
/// Bits 5 and 6, of a real key as of a virtual one. They go to register bits 29 and 30.
const REFERENCE_AND_CHANGE: u8 = KEY_REFERENCE | KEY_CHANGE;

/// Gives the record with the result register.
pub fn insert_storage_key(
    machine: &mut Machine<impl References>,
    guest: &Guest,
    first_halfword: u16,
) -> Result<Guest, Ending> {
    let r1 = halfword_bits(first_halfword, 8, 11);
    let second_operand = guest.general_register(halfword_bits(first_halfword, 12, 15));
    // 1. Control register 6 bits 0-2 not 100, or bits 28-31 of register R2 not zero: refuse.
    machine.step = 1;
    if word_bits(guest.control_register_6, 0, 2) != 0b100 || word_bits(second_operand, 28, 31) != 0 {
        return Err(Ending::REFUSE);
    }
    let address = word_bits(second_operand, 8, 31);
    let mut tried = Tried::default();
    // 2 and 3.
    let micrseg = tried.micrseg(machine, guest)?;
    // 4 to 10.
    let page = RealPage::find(machine, &mut tried, micrseg, address, 4)?;
    // 11. The real key, if the page entry is valid; else this step is not performed.
    machine.step = 11;
    let real_key = match page.real_address {
        Some(real_address) => tried.key(machine, real_address)?,
        None => 0,
    };
    // 12. MICVPSW, at offset 8: the address in bits 8-31.
    machine.step = 12;
    let micvpsw = tried.word(machine, add(guest.micblok_address(), 8))?;
    // 13. VMPSW: the halfword of Figure 7.
    machine.step = 13;
    let virtual_psw = tried.halfword(machine, word_bits(micvpsw, 8, 31))?;
    // 14. Figure 6.
    machine.step = 14;
    let virtual_key = page.swap_word.to_be_bytes()[if word_bit(address, 20) { 3 } else { 2 }];
    let ec_mode = halfword_bit(virtual_psw, 12);
    Ok(guest.with_rightmost_byte(r1, first_operand_byte(virtual_key, real_key, ec_mode)))
}

/// Bits 24-31 of the first operand. With an invalid page entry the real key is given as zero.
fn first_operand_byte(virtual_key: u8, real_key: u8, ec_mode: bool) -> u8 {
    let bits_29_30 = if ec_mode { (virtual_key | real_key) & REFERENCE_AND_CHANGE } else { 0 };
    virtual_key & ACCESS_AND_FETCH | bits_29_30
}
