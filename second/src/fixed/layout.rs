//! Fields of the set-ups, and what stands beside them so that a program that looks there finds something else.

use super::Field;
use crate::setup::{Setup, ECBLOK, MICBLOK, OPERAND, VIRTUAL_PSW};

pub const MICRSEG: Field = Field { name: "MICRSEG", address: MICBLOK, length: 4 };
pub const MICCREG: Field = Field { name: "MICCREG", address: MICBLOK + 4, length: 4 };
pub const MICVPSW: Field = Field { name: "MICVPSW", address: MICBLOK + 8, length: 4 };
pub const VMPSW: Field = Field { name: "VMPSW", address: VIRTUAL_PSW, length: 2 };
pub const OPERAND_BYTE: Field = Field { name: "operand", address: OPERAND, length: 1 };

/// EXTCR r: four bytes at offset 4r of the ECBLOK.
pub fn extcr(number: u32) -> Field {
    Field { name: "EXTCR", address: ECBLOK + 4 * number, length: 4 }
}

/// Where a wrong MICCREG or MICVPSW leads.
pub const DECOY: u32 = 0x700;

/// The words around the fields that the set-up has put in the MICBLOK; `kept` are left alone.
pub fn around_micblok(mut setup: Setup, word: u32, kept: &[Field]) -> Setup {
    for address in (MICBLOK - 8..MICBLOK + 20).step_by(4) {
        if !kept.iter().any(|field| field.address == address) {
            setup = setup.word(address, word);
        }
    }
    setup
}

/// Eight bytes on either side of a field.
pub fn around(mut setup: Setup, field: Field, byte: u8) -> Setup {
    for offset in 0..8 {
        setup.image.put(field.address - 8 + offset, &[byte]);
        setup.image.put(field.address + field.length + offset, &[byte]);
    }
    setup
}

/// DAT on, 4K pages, 64K segments, in 32 KiB. Logical pages 0, 1 and 2 are in frames 004000, 005000 and
/// 006000: the fields, which are real, stay below 001000, instruction and operand, which are logical, move.
pub fn translated(setup: Setup) -> Setup {
    let setup = setup.size(0x8000).dat(0b10000);
    let setup = setup.map(0, 0x4000).map(0x1000, 0x5000).map(0x2000, 0x6000);
    // At the real address 001002 another displacement.
    setup.instruction(0x1000, 0x5000).halfword(0x1002, 0x2018)
}
