//! Control fields that several instructions use: MICBLOK words and the virtual PSW.

use crate::address::add;
use crate::bits::{halfword_bit, word_bit, word_bits};
use crate::ending::Ending;
use crate::guest::Guest;
use crate::machine::Machine;
use crate::references::{ReferenceKind, References};

/// A word that is a control field.
#[inline]
pub fn fetch_field_word(machine: &mut Machine<impl References>, address: u32) -> Result<u32, Ending> {
    machine.fetch_field(ReferenceKind::ControlField, address).map(u32::from_be_bytes)
}

/// A halfword that is a control field.
#[inline]
pub fn fetch_field_halfword(machine: &mut Machine<impl References>, address: u32) -> Result<u16, Ending> {
    machine.fetch_field(ReferenceKind::ControlField, address).map(u16::from_be_bytes)
}

/// MICRSEG is at offset 0.
#[inline]
pub fn fetch_micrseg(machine: &mut Machine<impl References>, guest: &Guest) -> Result<u32, Ending> {
    fetch_field_word(machine, guest.micblok_address())
}

/// MICCREG, at offset 4, gives the ECBLOK address in bits 8-31.
#[inline]
pub fn fetch_ecblok_address(machine: &mut Machine<impl References>, guest: &Guest) -> Result<u32, Ending> {
    let miccreg = fetch_field_word(machine, add(guest.micblok_address(), 4))?;
    Ok(word_bits(miccreg, 8, 31))
}

/// Virtual control register r is the word at ECBLOK + 4r; gives its four bytes.
#[inline]
pub fn fetch_virtual_register(
    machine: &mut Machine<impl References>,
    ecblok: u32,
    number: u32,
) -> Result<[u8; 4], Ending> {
    machine.fetch_field(ReferenceKind::VirtualRegister, add(ecblok, 4 * number))
}

/// MICVPSW: the virtual PSW address in bits 8-31; bit 0 says that a virtual interruption is pending.
#[derive(Clone, Copy)]
pub struct Micvpsw {
    pub address: u32,
    pub pending: bool,
}

/// MICVPSW is at offset 8.
#[inline]
pub fn fetch_micvpsw(machine: &mut Machine<impl References>, guest: &Guest) -> Result<Micvpsw, Ending> {
    let word = fetch_field_word(machine, add(guest.micblok_address(), 8))?;
    Ok(Micvpsw { address: word_bits(word, 8, 31), pending: word_bit(word, 0) })
}

/// What the first halfword of the virtual PSW says.
#[derive(Clone, Copy)]
pub struct VirtualPsw {
    pub byte_0: u8,
    /// Virtual bit 12.
    pub ec_mode: bool,
}

/// The first halfword of the virtual PSW.
#[inline]
pub fn fetch_virtual_psw(
    machine: &mut Machine<impl References>,
    micvpsw: Micvpsw,
) -> Result<VirtualPsw, Ending> {
    let halfword = fetch_field_halfword(machine, micvpsw.address)?;
    Ok(VirtualPsw { byte_0: (halfword >> 8) as u8, ec_mode: halfword_bit(halfword, 12) })
}
