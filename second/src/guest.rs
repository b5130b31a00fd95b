//! The guest's record: real PSW, general registers, real control registers 0, 1 and 6.

use crate::address;
use crate::bits::{word_bit, word_bits};

/// The record that goes in by value and is handed back.
#[derive(Clone, Copy, Debug, PartialEq, Eq)]
pub struct Guest {
    /// PSW bits 0-31.
    pub psw_0_31: u32,
    /// PSW bits 32-63.
    pub psw_32_63: u32,
    pub general_registers: [u32; 16],
    pub control_register_0: u32,
    pub control_register_1: u32,
    pub control_register_6: u32,
}

impl Guest {
    /// PSW bits 40-63.
    #[inline]
    pub fn instruction_address(&self) -> u32 {
        word_bits(self.psw_32_63, 8, 31)
    }

    /// PSW bit 5.
    #[inline]
    pub fn dat_on(&self) -> bool {
        word_bit(self.psw_0_31, 5)
    }

    /// PSW bits 8-11.
    #[inline]
    pub fn psw_key(&self) -> u32 {
        word_bits(self.psw_0_31, 8, 11)
    }

    /// PSW bit 12.
    #[inline]
    pub fn ec_mode(&self) -> bool {
        word_bit(self.psw_0_31, 12)
    }

    /// PSW bit 15.
    #[inline]
    pub fn problem_state(&self) -> bool {
        word_bit(self.psw_0_31, 15)
    }

    /// Control register 0 bit 3: low-address protection (document 02, R-6).
    #[inline]
    pub fn low_address_protection(&self) -> bool {
        word_bit(self.control_register_0, 3)
    }

    /// Control register 6 bit 6: switches the expanded assist on (document 02, R-3).
    #[inline]
    pub fn expanded_switched_on(&self) -> bool {
        word_bit(self.control_register_6, 6)
    }

    /// A general register; only the four rightmost bits of the number are used.
    #[inline]
    pub fn general_register(&self, number: u32) -> u32 {
        self.general_registers[(number & 15) as usize]
    }

    /// The displacement plus bits 8-31 of the base register, where base 0 means zero.
    /// The second halfword's bits 0-3 name the base, 4-15 are the displacement.
    #[inline]
    pub fn effective_address(&self, second_halfword: u16) -> u32 {
        let base = u32::from(second_halfword >> 12);
        let displacement = u32::from(second_halfword & 0x0FFF);
        let base_address = if base == 0 { 0 } else { word_bits(self.general_register(base), 8, 31) };
        address::add(base_address, displacement)
    }

    /// The same with bits 8-31 of an index register added as a second base, where index 0 means zero (document 02,
    ///
    #[inline]
    pub fn indexed_address(&self, index: u32, second_halfword: u16) -> u32 {
        let index_address = if index == 0 { 0 } else { word_bits(self.general_register(index), 8, 31) };
        address::add(self.effective_address(second_halfword), index_address)
    }

    /// The MICBLOK address: bits 8-28 of control register 6, then three zeros.
    #[inline]
    pub fn micblok_address(&self) -> u32 {
        word_bits(self.control_register_6, 8, 28) << 3
    }

    /// The condition code: PSW bits 18-19.
    #[inline]
    pub fn condition_code(&self) -> u32 {
        word_bits(self.psw_0_31, 18, 19)
    }

    /// The record with another rightmost byte (bits 24-31) in a general register (document 02, R-4).
    #[inline]
    pub fn with_rightmost_byte(&self, number: u32, byte: u8) -> Guest {
        let mut guest = *self;
        let register = &mut guest.general_registers[(number & 15) as usize];
        *register = (*register & !0xFF) | u32::from(byte);
        guest
    }

    /// The record with another word in a general register (document 02, R-9).
    #[inline]
    pub fn with_general_register(&self, number: u32, word: u32) -> Guest {
        let mut guest = *self;
        guest.general_registers[(number & 15) as usize] = word;
        guest
    }

    /// The record with this condition code in PSW bits 18-19 (document 02, R-4).
    #[inline]
    pub fn with_condition_code(&self, code: u32) -> Guest {
        Guest { psw_0_31: (self.psw_0_31 & !0x0000_3000) | ((code & 3) << 12), ..*self }
    }

    /// The record with its instruction address moved on, modulo 2^24; nothing else changes.
    #[inline]
    pub fn moved_on(&self, length: u32) -> Guest {
        let bits_32_39 = self.psw_32_63 & !address::ADDRESS_MASK;
        let next = address::add(self.instruction_address(), length);
        Guest { psw_32_63: bits_32_39 | next, ..*self }
    }
}
