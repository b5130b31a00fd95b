//! ISK and RRB with a fetch of their own in the page's block (document 02, R-13): what is fetched before the key is
//! read shows in it, what is fetched after it does not. The key has neither bit before the call, nor has the virtual
//! key.

use super::FixedList;
use crate::setup::{Setup, MICBLOK, PAGE_ENTRY, REAL_SEGMENT_TABLE, SWAP_WORD, VIRTUAL_EC, VIRTUAL_PSW};

/// Of the set-ups: frame and half of the page, by the block.
fn in_block(setup: Setup, block: u32) -> (Setup, u32) {
    let page_entry = (block / 2 << 4) as u16;
    (setup.halfword(PAGE_ENTRY, page_entry), 0x02_3000 | (block % 2) << 11)
}

/// Virtual keys A8.
fn isk(block: u32) -> Setup {
    let setup = Setup::isk(VIRTUAL_EC).key(2, 0x00).word(SWAP_WORD, 0x5AC3_A8A8);
    let (setup, address) = in_block(setup, block);
    setup.register(4, address).key(block, 0x50)
}

/// Virtual keys F8.
fn rrb(block: u32) -> Setup {
    let setup = Setup::rrb().key(4, 0x00).word(SWAP_WORD, 0x50C3_F8F8);
    let (setup, address) = in_block(setup, block);
    setup.operand(address).key(block, 0x50)
}

pub fn cases() -> Vec<FixedList> {
    let mut cases = insert_storage_key();
    cases.extend(reset_reference_bit());
    cases
}

fn list(case: &str, setup: &Setup) -> FixedList {
    FixedList::one(&format!("own block: {case}"), setup, &[])
}

/// MICBLOK at 17F8: MICRSEG is in block 2, MICVPSW, at 1800, in block 3. Virtual PSW at 2600, in block 4.
fn insert_storage_key() -> Vec<FixedList> {
    let micblok = |block| {
        let setup = isk(block).control_register_6(0x8000_17F8).word(0x17F8, REAL_SEGMENT_TABLE);
        setup.word(0x1800, VIRTUAL_PSW)
    };
    let virtual_psw = |block| isk(block).word(MICBLOK + 8, 0x2600).word(0x2600, 0x0008_0000);
    vec![
        list("MICRSEG alone", &micblok(2)),
        list("MICVPSW alone", &micblok(3)),
        list("virtual PSW alone", &virtual_psw(4)),
        list("MICRSEG and MICVPSW", &virtual_psw(0)),
        list("tables", &isk(1)),
        list("nothing", &isk(5)),
    ]
}

/// DAT tables in block 6, the second halfword in block 2, MICRSEG in block 0.
fn reset_reference_bit() -> Vec<FixedList> {
    vec![
        list("MICRSEG", &rrb(0)),
        list("tables", &rrb(1)),
        list("second halfword", &rrb(2)),
        list("DAT tables", &rrb(6).dat(0b10000).map(0x1000, 0x1000)),
        list("nothing", &rrb(5)),
    ]
}
