//! The steps of ISK and RRB: step 1 bit by bit, every place of ending 3, and two troubles at once, of which the step
//! that comes first decides.

use super::FixedList;
use crate::setup::{
    Setup, MICBLOK, PAGE_ENTRY, REAL_SEGMENT_TABLE, SEGMENT_ENTRY, SWAP_ADDRESS, SWAP_TABLE, VIRTUAL_EC,
};

/// What is wrong in a step, and how.
type Trouble = (&'static str, fn(Setup) -> Setup);

const MICBLOK_OUTSIDE: Trouble = ("MICBLOK outside", |setup| setup.control_register_6(0x8000_4000));
const BIT_30: Trouble = ("bit 30", |setup| setup.word(MICBLOK, REAL_SEGMENT_TABLE | 2));
const SEGMENT_TABLE: Trouble = ("segment table outside", |setup| setup.word(MICBLOK, 0x0000_4000));
const SEGMENT_INVALID: Trouble = ("segment invalid", |setup| setup.word(SEGMENT_ENTRY, 0xF000_0C11));
const SWAP_ADDRESS_OUTSIDE: Trouble =
    ("swap address outside", |setup| setup.word(SEGMENT_ENTRY, 0xF000_4008));
const SWAP_WORD_OUTSIDE: Trouble = ("swap word outside", |setup| setup.word(SWAP_ADDRESS, 0x0000_3FE7));
const PAGE_TABLE: Trouble =
    ("page table outside", |setup| setup.word(SEGMENT_ENTRY, 0xF000_4000).word(0x3FFC, SWAP_TABLE));
const PAGE_FORMAT: Trouble = ("page entry 0FF2", |setup| setup.halfword(PAGE_ENTRY, 0x0FF2));
const FRAME: Trouble = ("frame outside", |setup| setup.halfword(PAGE_ENTRY, 0x0FF0));
const PAGE_INVALID: Trouble = ("page invalid", |setup| setup.halfword(PAGE_ENTRY, 0x0FF8));

/// ISK: MICRSEG at 3FF8, so that MICVPSW is outside; virtual PSW at 3FFF.
const MICVPSW: Trouble =
    ("MICVPSW outside", |setup| setup.control_register_6(0x8000_3FF8).word(0x3FF8, REAL_SEGMENT_TABLE));
const VIRTUAL_PSW: Trouble = ("virtual PSW outside", |setup| setup.word(MICBLOK + 8, 0x0000_3FFF));
const R2_BIT_31: Trouble = ("R2 bit 31", |setup| setup.register(4, 0x5A02_3001));

/// RRB: instruction at 3FFE; control register 6 bits 0-3 1001; operand 123000, which is too long for length 0.
const HALFWORD: Trouble = ("halfword outside", |setup| setup.instruction(0x3FFE, 0x3FFE));
const BIT_3: Trouble = ("control register 6 bit 3", |mut setup| {
    setup.guest.control_register_6 |= 0x1000_0000;
    setup
});
const LENGTH: Trouble = ("length", |setup| setup.operand(0x12_3000));

/// No trouble, but segment and page entry of the second halfword, which have no place.
const DAT_ON: Trouble = ("DAT on", |setup| setup.dat(0b10000).map(0x1000, 0x1000));

const ISK: &[&[Trouble]] = &[
    &[MICBLOK_OUTSIDE],
    &[SEGMENT_TABLE],
    &[SWAP_ADDRESS_OUTSIDE],
    &[SWAP_WORD_OUTSIDE],
    &[PAGE_TABLE],
    &[FRAME],
    &[MICVPSW],
    &[PAGE_INVALID, MICVPSW],
    &[VIRTUAL_PSW],
    &[PAGE_INVALID, VIRTUAL_PSW],
    &[R2_BIT_31, MICBLOK_OUTSIDE],
    &[SWAP_WORD_OUTSIDE, PAGE_FORMAT],
    &[SWAP_WORD_OUTSIDE, VIRTUAL_PSW],
    &[SEGMENT_INVALID, MICVPSW],
    &[PAGE_FORMAT, VIRTUAL_PSW],
    &[PAGE_FORMAT, MICVPSW],
    &[FRAME, MICVPSW],
    &[FRAME, VIRTUAL_PSW],
];

const RRB: &[&[Trouble]] = &[
    &[MICBLOK_OUTSIDE],
    &[SEGMENT_TABLE],
    &[SWAP_ADDRESS_OUTSIDE],
    &[SWAP_WORD_OUTSIDE],
    &[PAGE_TABLE],
    &[FRAME],
    &[MICBLOK_OUTSIDE, BIT_3],
    &[BIT_3, HALFWORD],
    &[MICBLOK_OUTSIDE, HALFWORD],
    &[BIT_30, HALFWORD],
    &[HALFWORD, LENGTH],
    &[HALFWORD, SEGMENT_TABLE],
    &[HALFWORD, SEGMENT_INVALID],
    &[LENGTH, SEGMENT_TABLE],
    &[SWAP_WORD_OUTSIDE, PAGE_FORMAT],
    &[HALFWORD, FRAME],
    &[DAT_ON, SEGMENT_TABLE],
    &[DAT_ON, FRAME],
];

pub fn cases() -> Vec<FixedList> {
    let isk = || Setup::isk(VIRTUAL_EC);
    let mut cases: Vec<FixedList> = (0..16).map(|bits| control_register_6(isk(), bits)).collect();
    cases.extend((0..16).map(|bits| control_register_6(Setup::rrb(), bits)));
    for bit in 28..32 {
        let low_bit = 0x8000_0000 >> bit;
        cases.push(one(&format!("R2 bit {bit}"), &isk().register(4, 0x5A02_3000 | low_bit)));
        cases.push(one(&format!("operand bit {bit}"), &Setup::rrb().operand(0x02_3000 | low_bit)));
    }
    cases.extend(ISK.iter().map(|troubles| with_troubles(isk(), troubles)));
    cases.extend(RRB.iter().map(|troubles| with_troubles(Setup::rrb(), troubles)));
    cases
}

fn one(case: &str, setup: &Setup) -> FixedList {
    FixedList::one(&format!("step: {case}"), setup, &[])
}

/// Bits 0-3 as given, all other bits that are no part of the address ones.
fn control_register_6(setup: Setup, bits: u32) -> FixedList {
    let case = format!("control register 6 bits 0-3 {bits:04b}");
    one(&case, &setup.control_register_6(bits << 28 | 0x0F00_0007 | MICBLOK))
}

fn with_troubles(setup: Setup, troubles: &[Trouble]) -> FixedList {
    let names: Vec<&str> = troubles.iter().map(|trouble| trouble.0).collect();
    let setup = troubles.iter().fold(setup, |setup, trouble| trouble.1(setup));
    one(&names.join(", "), &setup)
}
