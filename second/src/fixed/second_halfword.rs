//! The second halfword of RRB and LRA in all four formats: each code that its access can end with, and none; and the
//! same with DAT off.

use super::FixedList;
use crate::setup::{Setup, SEGMENT_TABLE};

/// Format in words, control register 0 bits 8-12, bits of a page entry: invalid, and wrong format.
const FORMATS: [(&str, u32, u16, u16); 4] = [
    ("2K, 64K", 0b01000, 0x0004, 0x0002),
    ("2K, 1M", 0b01010, 0x0004, 0x0002),
    ("4K, 64K", 0b10000, 0x0008, 0x0004),
    ("4K, 1M", 0b10010, 0x0008, 0x0004),
];

/// The instruction's address: bits 8-11, segment index, page index and its four leftmost bits are not zero in any
/// format.
const LOGICAL: u32 = 0x1C_1000;

pub fn cases() -> Vec<FixedList> {
    [Setup::rrb(), Setup::lra()].iter().flat_map(cases_of_instruction).collect()
}

fn cases_of_instruction(setup: &Setup) -> Vec<FixedList> {
    let of_format = |format| cases_of_format(setup, format);
    let mut cases: Vec<FixedList> = FORMATS.into_iter().flat_map(of_format).collect();
    let not_there = setup.clone().instruction(0x3FFE, 0x3FFE);
    cases.push(one("DAT off", "in storage", setup));
    cases.push(one("DAT off", "not in storage", &not_there));
    cases.push(one("DAT off", "protected", &protected(setup.clone())));
    cases
}

fn one(format: &str, case: &str, setup: &Setup) -> FixedList {
    FixedList::one(&format!("second halfword: {format}, {case}"), setup, &[])
}

fn protected(setup: Setup) -> Setup {
    setup.psw_key(1).key(2, 0x28)
}

fn cases_of_format(setup: &Setup, (format, bits, invalid, wrong): (&str, u32, u16, u16)) -> Vec<FixedList> {
    let mut setup = setup.clone().dat(bits).instruction(LOGICAL, 0x1000).map(LOGICAL, 0x1000);
    let (segment_entry, page_entry) = setup.entry_addresses(LOGICAL);
    let segment_word = setup.image.word(segment_entry);
    let page_halfword = (setup.image.word(page_entry) >> 16) as u16;
    let with_segment = |word: u32| setup.clone().word(segment_entry, word);
    let with_page = |halfword: u16| setup.clone().halfword(page_entry, halfword);
    let (mut wrong_format, mut short) = (setup.clone(), setup.clone());
    wrong_format.guest.control_register_0 |= 0x0020_0000;
    short.guest.control_register_1 = SEGMENT_TABLE;
    vec![
        one(format, "in storage", &setup),
        one(format, "wrong format", &wrong_format),
        one(format, "segment table of length 0", &short),
        one(format, "segment invalid", &with_segment(segment_word | 1)),
        one(format, "segment entry bit 7 one", &with_segment(segment_word | 0x0100_0000)),
        one(format, "page table of length 0", &with_segment(segment_word & 0x0FFF_FFFF)),
        one(format, "page table not in storage", &with_segment(0xF000_4000)),
        one(format, "page invalid", &with_page(page_halfword | invalid)),
        one(format, "page entry of wrong format", &with_page(page_halfword | wrong)),
        one(format, "frame not in storage", &with_page(0x4000)),
        one(format, "protected", &protected(setup.clone())),
    ]
}
