//! The steps of LRA: step 1 bit by bit, every place of ending 3, virtual entries that are not in storage, and two
//! troubles at once, of which the step that comes first decides. Place 2, MICCREG, is in storage if MICRSEG is.

use super::FixedList;
use crate::setup::{
    Setup, ECBLOK, FIRST_PAGE_ENTRY, FIRST_SEGMENT_ENTRY, MICBLOK, REAL_PAGE_TABLE, SECOND_PAGE_ENTRY,
    SECOND_PAGE_TABLE, SECOND_SEGMENT_ENTRY, VIRTUAL_PAGE_ENTRY, VIRTUAL_PAGE_TABLE, VIRTUAL_SEGMENT_ENTRY,
    VIRTUAL_SEGMENT_TABLE,
};

/// What is wrong in a step, and how.
type Trouble = (&'static str, fn(Setup) -> Setup);

const BIT_3: Trouble = ("control register 6 bit 3", |mut setup| {
    setup.guest.control_register_6 |= 0x1000_0000;
    setup
});
const MICBLOK_OUTSIDE: Trouble = ("MICBLOK outside", |mut setup| {
    setup.guest.control_register_6 = setup.guest.control_register_6 & 0xFF00_0000 | 0x4000;
    setup
});
const EXTCR0_OUTSIDE: Trouble = ("EXTCR0 outside", |setup| setup.word(MICBLOK + 4, 0x0000_4000));
const EXTCR0_ACROSS_TOP: Trouble = ("EXTCR0 across the top", |setup| setup.word(MICBLOK + 4, 0x0000_3FFD));
/// EXTCR0, the last word of storage, is a copy of the one at its usual place, unless it has been altered before.
const EXTCR1_OUTSIDE: Trouble = ("EXTCR1 outside", |setup| {
    let register_0 = setup.image.word(ECBLOK);
    setup.word(MICBLOK + 4, 0x0000_3FFC).word(0x3FFC, register_0)
});
const EXTCR1_ACROSS_TOP: Trouble = ("EXTCR1 across the top", |setup| {
    let register_0 = setup.image.word(ECBLOK);
    setup.word(MICBLOK + 4, 0x0000_3FF9).word(0x3FF9, register_0)
});
const FORMAT: Trouble = ("virtual format", |setup| setup.word(ECBLOK, 0x0000_0000));
const HALFWORD: Trouble = ("halfword outside", |setup| setup.instruction(0x3FFE, 0x3FFE));
const LENGTH: Trouble =
    ("virtual segment length", |setup| setup.word(ECBLOK + 4, 0x0200_0000 | VIRTUAL_SEGMENT_TABLE));

const REAL_LENGTH: Trouble = ("real length", |setup| {
    let origin = setup.image.word(MICBLOK) & 0x00FF_FFFF;
    setup.word(MICBLOK, origin)
});
const SEGPAGE: Trouble = ("SEGPAGE outside", |setup| setup.word(MICBLOK, 0x0100_4000));
const SEGPAGE_INVALID: Trouble = ("SEGPAGE invalid", |setup| with_ones(setup, FIRST_SEGMENT_ENTRY, 1));
const SEGPAGE_SHORT: Trouble =
    ("SEGPAGE too short", |setup| setup.word(FIRST_SEGMENT_ENTRY, 0x2000_0000 | REAL_PAGE_TABLE));
const PAGCORE: Trouble = ("PAGCORE outside", |setup| {
    let word = setup.image.word(FIRST_SEGMENT_ENTRY);
    setup.word(FIRST_SEGMENT_ENTRY, word & 0xFF00_0007 | 0x4000)
});
const PAGCORE_INVALID: Trouble = ("PAGCORE invalid", |setup| setup.halfword(FIRST_PAGE_ENTRY, 0x0028));
const SEGMENT_ENTRY: Trouble =
    ("virtual segment entry outside", |setup| setup.halfword(FIRST_PAGE_ENTRY, 0x0FF0));
const SEGMENT_INVALID: Trouble =
    ("virtual segment invalid", |setup| with_ones(setup, VIRTUAL_SEGMENT_ENTRY, 1));
const SEGMENT_FORMAT: Trouble =
    ("virtual segment format", |setup| with_ones(setup, VIRTUAL_SEGMENT_ENTRY, 0x0100_0000));
const PAGE_LENGTH: Trouble = ("virtual page length", |setup| {
    let word = setup.image.word(VIRTUAL_SEGMENT_ENTRY) & 0x0FFF_FFFF;
    setup.word(VIRTUAL_SEGMENT_ENTRY, 0x4000_0000 | word)
});

/// The virtual page table at F56D08: segment F5, for which the real segment table's length 1 is too short.
const SECOND_LENGTH: Trouble = ("second real length", |setup| {
    let word = setup.image.word(VIRTUAL_SEGMENT_ENTRY) & 0xFF00_0007;
    setup.word(VIRTUAL_SEGMENT_ENTRY, word | 0x00F0_0000 | VIRTUAL_PAGE_TABLE)
});
/// There, and the real segment table at 3F80 with length F: the entry of segment 12 is at 3FC8, that of segment F5
/// outside.
const SECOND_SEGPAGE: Trouble = ("second SEGPAGE outside", |setup| {
    let entry = setup.image.word(FIRST_SEGMENT_ENTRY);
    let setup = setup.word(MICBLOK, 0x0F00_3F80).word(0x3FC8, entry);
    SECOND_LENGTH.1(setup)
});
const SECOND_INVALID: Trouble = ("second SEGPAGE invalid", |setup| with_ones(setup, SECOND_SEGMENT_ENTRY, 1));
const SECOND_SHORT: Trouble =
    ("second SEGPAGE too short", |setup| setup.word(SECOND_SEGMENT_ENTRY, 0x5000_0000 | SECOND_PAGE_TABLE));
const SECOND_PAGCORE: Trouble = ("second PAGCORE outside", |setup| {
    let word = setup.image.word(SECOND_SEGMENT_ENTRY);
    setup.word(SECOND_SEGMENT_ENTRY, word & 0xFF00_0007 | 0x4000)
});
const PAGE_ENTRY: Trouble = ("virtual page entry outside", |setup| setup.halfword(SECOND_PAGE_ENTRY, 0x0FF0));
const PAGE_INVALID: Trouble = ("virtual page invalid", |setup| setup.halfword(VIRTUAL_PAGE_ENTRY, 0xABC8));
const PAGE_INVALID_AND_FORMAT: Trouble =
    ("virtual page invalid and format", |setup| setup.halfword(VIRTUAL_PAGE_ENTRY, 0xABCE));

/// No trouble, but segment and page entry of the second halfword, which have no place.
const DAT_ON: Trouble = ("DAT on", |setup| setup.dat(0b10000).map(0x1000, 0x1000));

const TROUBLES: &[&[Trouble]] = &[
    &[MICBLOK_OUTSIDE],
    &[EXTCR0_OUTSIDE],
    &[EXTCR0_ACROSS_TOP],
    &[EXTCR1_OUTSIDE],
    &[EXTCR1_ACROSS_TOP],
    &[SEGPAGE],
    &[PAGCORE],
    &[SEGMENT_ENTRY],
    &[SECOND_SEGPAGE],
    &[SECOND_PAGCORE],
    &[PAGE_ENTRY],
    &[DAT_ON, SEGPAGE],
    &[DAT_ON, SECOND_PAGCORE],
    &[DAT_ON, PAGE_ENTRY],
    &[BIT_3, MICBLOK_OUTSIDE],
    &[BIT_3, FORMAT],
    &[EXTCR0_OUTSIDE, HALFWORD],
    &[FORMAT, EXTCR1_OUTSIDE],
    &[FORMAT, HALFWORD],
    &[HALFWORD, LENGTH],
    &[HALFWORD, REAL_LENGTH],
    &[LENGTH, REAL_LENGTH],
    &[LENGTH, SEGPAGE],
    &[SEGPAGE, REAL_LENGTH],
    &[SEGPAGE_INVALID, PAGCORE],
    &[SEGPAGE_SHORT],
    &[PAGCORE_INVALID, SEGMENT_INVALID],
    &[SEGMENT_ENTRY, SEGMENT_INVALID],
    &[SEGMENT_INVALID, SEGMENT_FORMAT],
    &[SEGMENT_INVALID, PAGE_LENGTH],
    &[SEGMENT_INVALID, SECOND_SEGPAGE],
    &[SEGMENT_FORMAT, PAGE_LENGTH],
    &[SEGMENT_FORMAT, SECOND_SEGPAGE],
    &[PAGE_LENGTH, SECOND_LENGTH],
    &[PAGE_LENGTH, SECOND_SEGPAGE],
    &[SECOND_LENGTH],
    &[SECOND_SEGPAGE, REAL_LENGTH_OF_1],
    &[SECOND_SHORT],
    &[SECOND_INVALID, SECOND_PAGCORE],
    &[SECOND_INVALID, PAGE_INVALID],
    &[PAGE_ENTRY, PAGE_INVALID],
    &[PAGE_INVALID_AND_FORMAT],
];

/// Long enough for the first walk.
const REAL_LENGTH_OF_1: Trouble = ("length 1", |setup| {
    let origin = setup.image.word(MICBLOK) & 0x00FF_FFFF;
    setup.word(MICBLOK, 0x0100_0000 | origin)
});

fn with_ones(setup: Setup, address: u32, ones: u32) -> Setup {
    let word = setup.image.word(address);
    setup.word(address, word | ones)
}

pub fn cases() -> Vec<FixedList> {
    let mut cases: Vec<FixedList> = (0..16).map(control_register_6).collect();
    cases.extend(TROUBLES.iter().map(|troubles| with_troubles(troubles)));
    cases
}

fn one(case: &str, setup: &Setup) -> FixedList {
    FixedList::one(&format!("step: {case}"), setup, &[])
}

/// Bits 0-3 as given, all other bits that are no part of the address ones.
fn control_register_6(bits: u32) -> FixedList {
    let case = format!("control register 6 bits 0-3 {bits:04b}");
    one(&case, &Setup::lra().control_register_6(bits << 28 | 0x0F00_0007 | MICBLOK))
}

fn with_troubles(troubles: &[Trouble]) -> FixedList {
    let names: Vec<&str> = troubles.iter().map(|trouble| trouble.0).collect();
    let setup = troubles.iter().fold(Setup::lra(), |setup, trouble| trouble.1(setup));
    one(&names.join(", "), &setup)
}
