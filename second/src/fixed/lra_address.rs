//! LRA's second-operand address, by base and index, and the register that is loaded; and addresses of entries that go
//! round from FFFFFF to 000000.

use super::FixedList;
use crate::setup::{
    Setup, ECBLOK, FIRST_SEGMENT_ENTRY, INSTRUCTION, MICBLOK, MICRSEG, MICRSEG_2K, REAL_PAGE_TABLE,
    REAL_SEGMENT_TABLE, SECOND_SEGMENT_ENTRY, VIRTUAL_PAGE_ENTRY, VIRTUAL_PAGE_TABLE_REAL,
    VIRTUAL_SEGMENT_ENTRY, VIRTUAL_SEGMENT_TABLE_REAL,
};

pub fn cases() -> Vec<FixedList> {
    let mut cases = operand_cases();
    cases.extend(round_cases());
    cases
}

/// First halfword B1 with R1 and X2, second halfword, and registers with their contents; register 0 has ones, which are
/// no base and no index.
fn operand(case: &str, halfwords: [u16; 2], registers: &[(usize, u32)]) -> FixedList {
    let mut setup = Setup::lra().register(2, 0x5A5A_5A5A).register(0, 0xFFFF_FFFF);
    setup.first_halfword = halfwords[0];
    for &(number, contents) in registers {
        setup = setup.register(number, contents);
    }
    let setup = setup.halfword(INSTRUCTION, halfwords[0]).halfword(INSTRUCTION + 2, halfwords[1]);
    FixedList::one(&format!("operand: {case}"), &setup, &[])
}

/// The address is 345E78 but where it says otherwise.
fn operand_cases() -> Vec<FixedList> {
    let both = [(2, 0xFF30_0E00), (4, 0xFF04_5068)];
    let round = [(2, 0x00FF_FFF8), (4, 0x0034_5E70)];
    let mut displacement_alone = operand("base 0, index 0, address 678", [0xB130, 0x0678], &[]);
    // Segment 0, page 0.
    displacement_alone.image.put_word(VIRTUAL_SEGMENT_TABLE_REAL, 0x0005_6D08);
    displacement_alone.image.put_halfword(VIRTUAL_PAGE_TABLE_REAL, 0xABC0);
    vec![
        operand("base 2, index 0", [0xB130, 0x2010], &[(2, 0x5A34_5E68)]),
        operand("base 0, index 2", [0xB132, 0x0010], &[(2, 0x5A34_5E68)]),
        displacement_alone,
        operand("base 2, index 4", [0xB134, 0x2010], &both),
        operand("base 4, index 2", [0xB132, 0x4010], &both),
        operand("base 2, index 2", [0xB132, 0x2010], &[(2, 0xA51A_2F34)]),
        operand("base 2, index 2, bit 8 one", [0xB132, 0x2010], &[(2, 0xA59A_2F34)]),
        operand("base 2, index 4, the sum goes round", [0xB134, 0x2010], &round),
        operand("base 15, index 14, displacement FFF", [0xB13E, 0xFFFF], &[(14, 0x34), (15, 0x34_4E45)]),
        operand("R1 is base 2", [0xB124, 0x2010], &both),
        operand("R1 is index 4", [0xB144, 0x2010], &both),
        operand("R1 is base 2 and index 2", [0xB122, 0x2010], &[(2, 0xA51A_2F34)]),
        operand("R1 is 0, base 0, index 2", [0xB102, 0x0010], &[(2, 0x5A34_5E68)]),
        operand("R1 is 15", [0xB1F4, 0x2010], &both),
    ]
}

fn round(case: &str, setup: &Setup) -> FixedList {
    FixedList::one(&format!("round: {case}"), setup, &[])
}

fn round_cases() -> Vec<FixedList> {
    let mut cases = virtual_segment_entry();
    cases.extend(virtual_page_entry());
    cases.extend(real_entries());
    cases
}

/// FFFF80 + 4 * 34 is 000050: real segment 0, page 0, in frame 002.
fn virtual_segment_entry() -> Vec<FixedList> {
    let setup = Setup::lra().word(REAL_SEGMENT_TABLE, REAL_PAGE_TABLE).halfword(REAL_PAGE_TABLE, 0x0020);
    let setup = setup.word(ECBLOK + 4, 0x03FF_FF80);
    let word = setup.image.word(VIRTUAL_SEGMENT_ENTRY);
    let setup = setup.word(0x2050, word);
    vec![
        round("virtual segment entry", &setup),
        round("virtual segment entry, code 1", &setup.clone().word(0x2050, word | 1)),
        round("virtual segment entry, code 3", &setup.word(ECBLOK + 4, 0x02FF_FF80)),
    ]
}

/// FFFFF8 + 2 * 5 is 000002: real segment 0, page 0, in frame 002.
fn virtual_page_entry() -> Vec<FixedList> {
    let setup = Setup::lra().word(REAL_SEGMENT_TABLE, REAL_PAGE_TABLE).halfword(REAL_PAGE_TABLE, 0x0020);
    let setup = setup.word(VIRTUAL_SEGMENT_ENTRY, 0x50FF_FFF8);
    let halfword = (setup.image.word(VIRTUAL_PAGE_ENTRY) >> 16) as u16;
    let setup = setup.halfword(0x2002, halfword);
    vec![
        round("virtual page entry", &setup),
        round("virtual page entry, code 2", &setup.clone().halfword(0x2002, halfword | 0x0008)),
        round("virtual page entry, code 3", &setup.word(VIRTUAL_SEGMENT_ENTRY, 0x40FF_FFF8)),
    ]
}

/// Segment table at FFFFC0: the entry of segment 12 is at 000008, that of segment 15 at 000014; that of segment 05 is
/// outside. Page tables at FFFFF8, 2K pages: entry 07 at 000006, entry 0D at 000012.
fn real_entries() -> Vec<FixedList> {
    let of = |address: u32| Setup::lra().image.word(address);
    let segment_table = Setup::lra().word(MICBLOK, 0x01FF_FFC0).word(0x08, of(FIRST_SEGMENT_ENTRY));
    let both =
        segment_table.clone().word(VIRTUAL_SEGMENT_ENTRY, 0x5015_6D08).word(0x14, of(SECOND_SEGMENT_ENTRY));
    let page_tables = Setup::lra()
        .word(MICBLOK, MICRSEG | MICRSEG_2K)
        .word(FIRST_SEGMENT_ENTRY, 0x30FF_FFF8)
        .word(SECOND_SEGMENT_ENTRY, 0x60FF_FFF8)
        .halfword(0x06, 0x0028)
        .halfword(0x12, 0x0018);
    vec![
        round("real segment entries", &both),
        round("real segment entry of the first walk, the second outside", &segment_table),
        round("real page entries", &page_tables),
    ]
}
