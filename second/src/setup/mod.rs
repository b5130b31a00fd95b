//! Complete set-ups with fixed places, for the edges and the tests. Each completes unless it is altered.

mod dat;
mod key_instructions;
mod load_real_address;

use crate::call::{Call, Request, StorageImage};
use crate::guest::Guest;

pub use dat::{PAGE_TABLES, PSW_DAT, SEGMENT_TABLE};
pub use key_instructions::{
    PAGE_ENTRY, REAL_PAGE_TABLE, REAL_SEGMENT_TABLE, SEGMENT_ENTRY, SWAP_ADDRESS, SWAP_TABLE, SWAP_WORD,
};
pub use load_real_address::{
    FIRST_PAGE_ENTRY, FIRST_PAGE_ENTRY_2K, FIRST_SEGMENT_ENTRY, LRA_ADDRESS, MICRSEG, MICRSEG_1M, MICRSEG_2K,
    SECOND_PAGE_ENTRY, SECOND_PAGE_ENTRY_2K, SECOND_PAGE_TABLE, SECOND_SEGMENT_ENTRY, VIRTUAL_2K_1M,
    VIRTUAL_2K_64K, VIRTUAL_4K_1M, VIRTUAL_4K_64K, VIRTUAL_PAGE_ENTRY, VIRTUAL_PAGE_ENTRY_1M,
    VIRTUAL_PAGE_ENTRY_2K, VIRTUAL_PAGE_ENTRY_2K_1M, VIRTUAL_PAGE_TABLE, VIRTUAL_PAGE_TABLE_REAL,
    VIRTUAL_SEGMENT_ENTRY, VIRTUAL_SEGMENT_ENTRY_1M, VIRTUAL_SEGMENT_TABLE, VIRTUAL_SEGMENT_TABLE_REAL,
};

pub const MICBLOK: u32 = 0x400;
pub const ECBLOK: u32 = 0x500;
pub const VIRTUAL_PSW: u32 = 0x600;
pub const INSTRUCTION: u32 = 0x1000;
pub const OPERAND: u32 = 0x2000;

/// EC mode (bit 12) and problem state (bit 15).
pub const PSW_EC_PROBLEM: u32 = 0x0009_0000;
/// Control register 0 bit 3.
pub const LOW_ADDRESS_PROTECTION: u32 = 0x1000_0000;

/// Control register 6 bit 6.
pub const EXPANDED_ON: u32 = 0x0200_0000;

/// Second byte of the virtual PSW: bit 12 alone, and all but bit 12.
pub const VIRTUAL_EC: u8 = 0x08;
pub const VIRTUAL_BC: u8 = 0xF7;

/// Virtual control register r of every set-up.
pub fn virtual_register(number: u32) -> u32 {
    0xA0B0_C0D0 + number * 0x0101_0101
}

/// A call under construction.
#[derive(Clone, Debug)]
pub struct Setup {
    pub image: StorageImage,
    pub guest: Guest,
    pub first_halfword: u16,
    pub expanded: bool,
    /// Segments that have a page table, in the order of the tables at `PAGE_TABLES`.
    segments: Vec<u32>,
}

impl Setup {
    /// 16 KiB, PSW key zero, DAT off; base register 2 with displacement 010 gives the operand.
    fn new(first_halfword: u16, storage_size: usize) -> Setup {
        let mut image = StorageImage::new(storage_size);
        image.put_word(MICBLOK + 4, ECBLOK);
        image.put_word(MICBLOK + 8, VIRTUAL_PSW);
        for number in 0..16 {
            image.put_word(ECBLOK + 4 * number, virtual_register(number));
        }
        image.put_word(ECBLOK, 0x8000_0000);
        image.put_halfword(INSTRUCTION, first_halfword);
        image.put_halfword(INSTRUCTION + 2, 0x2010);
        let mut general_registers = [0; 16];
        general_registers[2] = 0x5A00_1FF0;
        let guest = Guest {
            psw_0_31: PSW_EC_PROBLEM,
            psw_32_63: INSTRUCTION,
            general_registers,
            control_register_0: 0,
            control_register_1: 0,
            control_register_6: 0x8000_0000 | MICBLOK,
        };
        Setup { image, guest, first_halfword, expanded: false, segments: Vec::new() }
    }

    /// SSM: virtual PSW (first byte, second byte), operand byte. Virtual register 0 has bit 0 but not bit 1.
    pub fn ssm(virtual_psw: [u8; 2], new: u8) -> Setup {
        let mut setup = Setup::new(0x8000, 0x4000);
        setup.image.put(VIRTUAL_PSW, &virtual_psw);
        setup.image.put(OPERAND, &[new]);
        setup
    }

    /// STCTL with R1 and R3, in storage of the given size.
    pub fn stctl_in(r1: u16, r3: u16, storage_size: usize) -> Setup {
        let mut setup = Setup::new(0xB600 | (r1 << 4) | r3, storage_size);
        setup.image.put_word(ECBLOK, virtual_register(0));
        setup
    }

    pub fn stctl(r1: u16, r3: u16) -> Setup {
        Setup::stctl_in(r1, r3, 0x4000)
    }

    pub fn stnsm(virtual_psw: [u8; 2], immediate: u8) -> Setup {
        let mut setup = Setup::new(0xAC00 | u16::from(immediate), 0x4000);
        setup.image.put(VIRTUAL_PSW, &virtual_psw);
        setup
    }

    pub fn stosm(virtual_psw: [u8; 2], immediate: u8) -> Setup {
        let mut setup = Setup::new(0xAD00 | u16::from(immediate), 0x4000);
        setup.image.put(VIRTUAL_PSW, &virtual_psw);
        setup
    }

    /// A virtual interruption is pending: bit 0 of MICVPSW.
    pub fn pending(mut self) -> Setup {
        let word = self.image.word(MICBLOK + 8);
        self.image.put_word(MICBLOK + 8, word | 0x8000_0000);
        self
    }

    /// The expanded assist is installed.
    pub fn expanded(mut self) -> Setup {
        self.expanded = true;
        self
    }

    /// It is switched on: bit 6 of control register 6, whose other bits stay; after `control_register_6`.
    pub fn switched_on(mut self) -> Setup {
        self.guest.control_register_6 |= EXPANDED_ON;
        self
    }

    /// Base register 2, so that the operand (displacement 010) is at this logical address.
    pub fn operand(mut self, address: u32) -> Setup {
        self.guest.general_registers[2] = address.wrapping_sub(0x10) & 0x00FF_FFFF;
        self
    }

    /// Instruction at this logical address; the two halfwords are put at the real address.
    pub fn instruction(mut self, logical: u32, real: u32) -> Setup {
        self.guest.psw_32_63 = logical;
        self.image.put_halfword(real, self.first_halfword);
        self.image.put_halfword(real.wrapping_add(2), 0x2010);
        self
    }

    pub fn psw_key(mut self, key: u32) -> Setup {
        self.guest.psw_0_31 = (self.guest.psw_0_31 & 0xFF0F_FFFF) | (key << 20);
        self
    }

    pub fn key(mut self, number: u32, value: u8) -> Setup {
        self.image.put_key(number, value);
        self
    }

    pub fn word(mut self, address: u32, value: u32) -> Setup {
        self.image.put_word(address, value);
        self
    }

    pub fn halfword(mut self, address: u32, value: u16) -> Setup {
        self.image.put_halfword(address, value);
        self
    }

    pub fn register(mut self, number: usize, value: u32) -> Setup {
        self.guest.general_registers[number] = value;
        self
    }

    /// Another first halfword; what stands at the instruction stays, as no call looks at it.
    pub fn first_halfword(mut self, first_halfword: u16) -> Setup {
        self.first_halfword = first_halfword;
        self
    }

    /// PSW bits 18-19.
    pub fn condition_code(mut self, code: u32) -> Setup {
        self.guest.psw_0_31 = (self.guest.psw_0_31 & !0x0000_3000) | (code << 12);
        self
    }

    pub fn control_register_6(mut self, value: u32) -> Setup {
        self.guest.control_register_6 = value;
        self
    }

    /// Another storage size, with its number of keys; bytes outside are dropped.
    pub fn size(mut self, storage_size: usize) -> Setup {
        self.image.storage_size = storage_size;
        self.image.key_count = storage_size / 2048;
        self
    }

    /// Low-address protection: bit 3 of control register 0, whose other bits stay; after `dat`.
    pub fn low_address_protection(mut self) -> Setup {
        self.guest.control_register_0 |= LOW_ADDRESS_PROTECTION;
        self
    }

    pub fn request(&self) -> Request {
        Request { guest: self.guest, first_halfword: self.first_halfword, expanded: self.expanded }
    }

    pub fn call(&self) -> Call {
        Call { image: self.image.clone(), request: self.request() }
    }
}
