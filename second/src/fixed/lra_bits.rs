//! LRA bit by bit: virtual control register 0 bits 8-12 in all 32 values; the bits of MICRSEG, MICCREG and virtual
//! control register 1 that are not looked at; the invalid and format bits of each entry, and those beside them. Bits 30
//! and 31 of MICRSEG are in `lra_formats`.

use super::FixedList;
use crate::setup::{
    Setup, ECBLOK, FIRST_PAGE_ENTRY, FIRST_PAGE_ENTRY_2K, FIRST_SEGMENT_ENTRY, MICBLOK, MICRSEG, MICRSEG_2K,
    SECOND_PAGE_ENTRY, SECOND_PAGE_ENTRY_2K, SECOND_SEGMENT_ENTRY, VIRTUAL_2K_64K, VIRTUAL_4K_64K,
    VIRTUAL_PAGE_ENTRY, VIRTUAL_PAGE_ENTRY_2K, VIRTUAL_SEGMENT_ENTRY,
};

const SEGMENT_ENTRIES: [(&str, u32); 3] = [
    ("real segment entry, first walk", FIRST_SEGMENT_ENTRY),
    ("real segment entry, second walk", SECOND_SEGMENT_ENTRY),
    ("virtual segment entry", VIRTUAL_SEGMENT_ENTRY),
];

/// Entry in words, its address, virtual control register 0, MICRSEG.
const PAGE_ENTRIES: [(&str, u32, u32, u32); 6] = [
    ("real 4K page entry, first walk", FIRST_PAGE_ENTRY, VIRTUAL_4K_64K, MICRSEG),
    ("real 2K page entry, first walk", FIRST_PAGE_ENTRY_2K, VIRTUAL_4K_64K, MICRSEG | MICRSEG_2K),
    ("real 4K page entry, second walk", SECOND_PAGE_ENTRY, VIRTUAL_4K_64K, MICRSEG),
    ("real 2K page entry, second walk", SECOND_PAGE_ENTRY_2K, VIRTUAL_4K_64K, MICRSEG | MICRSEG_2K),
    ("virtual 4K page entry", VIRTUAL_PAGE_ENTRY, VIRTUAL_4K_64K, MICRSEG),
    ("virtual 2K page entry", VIRTUAL_PAGE_ENTRY_2K, VIRTUAL_2K_64K, MICRSEG),
];

pub fn cases() -> Vec<FixedList> {
    let mut cases: Vec<FixedList> = (0..32).map(virtual_format).collect();
    for bit in 26..30 {
        let setup = Setup::lra().word(MICBLOK, MICRSEG | 0x8000_0000 >> bit);
        cases.push(one(&format!("MICRSEG bit {bit} one"), &setup));
    }
    cases.push(one("MICCREG bits 0-7 ones", &Setup::lra().word(MICBLOK + 4, 0xFF00_0000 | ECBLOK)));
    for bit in 26..32 {
        let word = Setup::lra().image.word(ECBLOK + 4) | 0x8000_0000 >> bit;
        let case = format!("virtual control register 1 bit {bit} one");
        cases.push(one(&case, &Setup::lra().word(ECBLOK + 4, word)));
    }
    for (entry, address) in SEGMENT_ENTRIES {
        for bit in [4, 5, 6, 7, 29, 30, 31] {
            let word = Setup::lra().image.word(address) ^ 0x8000_0000 >> bit;
            cases.push(one(&format!("{entry}, bit {bit} one"), &Setup::lra().word(address, word)));
        }
    }
    for (entry, address, register_0, micrseg) in PAGE_ENTRIES {
        for bit in 12..16 {
            let setup = Setup::lra_of(register_0, micrseg);
            let halfword = (setup.image.word(address) >> 16) as u16 ^ 0x8000 >> bit;
            cases.push(one(&format!("{entry}, bit {bit} turned"), &setup.halfword(address, halfword)));
        }
    }
    cases
}

fn one(case: &str, setup: &Setup) -> FixedList {
    FixedList::one(&format!("bit: {case}"), setup, &[])
}

/// All other bits of the register are ones.
fn virtual_format(bits: u32) -> FixedList {
    let case = format!("virtual control register 0 bits 8-12 {bits:05b}");
    one(&case, &Setup::lra().word(ECBLOK, 0xFF07_FFFF | bits << 19))
}
