//! Edges in 16 MiB, and in one block more.

use super::Edge;
use crate::setup::{
    Setup, FIRST_PAGE_ENTRY, MICBLOK, SECOND_PAGE_ENTRY, SWAP_ADDRESS, VIRTUAL_4K_64K, VIRTUAL_EC,
    VIRTUAL_PSW,
};

pub fn edges() -> Vec<Edge> {
    let mut edges = store_control_and_key_edges();
    edges.extend(load_address_edges());
    edges
}

/// STCTL, ISK and RRB.
fn store_control_and_key_edges() -> Vec<Edge> {
    // The words at FFFFF8 and FFFFFC are in block 1FFF (hex), the third in block 0, whose key is not PSW key 1.
    let protected =
        Setup::stctl_in(6, 8, 0x100_0000).operand(0xFF_FFF8).psw_key(1).key(0x1FFF, 0x10).key(0, 0x20);
    let round = Setup::stctl_in(6, 7, 0x100_0000).operand(0xFF_FFFC);
    vec![
        Edge::new(false, "operand FFFFFC, two registers, 16 MiB, key zero: goes round to 000000", &round),
        Edge::new(
            false,
            "storage one block over 16 MiB",
            &Setup::stctl_in(6, 7, 0x100_0800).operand(0xFF_FFFC),
        ),
        Edge::new(
            false,
            "operand FFFFF8, three registers, 16 MiB: third word at 000000 protected, nothing stored",
            &protected,
        ),
        Edge::new(false, "register 15 round the top: both blocks", &register_round_the_top()),
        Edge::new(
            false,
            "operand FFFFFC, two registers, 16 MiB, bit 3 one: goes round to 000000, nothing stored",
            &round.clone().low_address_protection(),
        ),
        Edge::new(
            false,
            "operand FFFFF8, three registers, 16 MiB, bit 3 one: third word at 000000 makes no entry, \
             nothing stored",
            &protected.clone().low_address_protection(),
        ),
        Edge::new(
            false,
            "EC, page valid, bit 20 zero, swap word 5AC3AD53 at FFFFFE, key 53",
            &swap_word_round_the_top(Setup::isk(VIRTUAL_EC), 0x5AC3_AD53),
        ),
        Edge::new(
            false,
            "key FF, swap word 50C3F9FF at FFFFFE, bit 20 zero",
            &swap_word_round_the_top(Setup::rrb().key(4, 0xFF), 0x50C3_F9FF),
        ),
    ]
}

/// Page 3's word is at FFFFE6 + 18 = FFFFFE, so that it ends at 000001.
fn swap_word_round_the_top(setup: Setup, swap_word: u32) -> Setup {
    setup.size(0x100_0000).word(SWAP_ADDRESS, 0x00FF_FFE6).word(0xFF_FFFE, swap_word)
}

/// MICBLOK at 1400, with the instruction in block 2. ECBLOK at FFFFC2: register 15 is at FFFFFE to 000001, and no
/// other item is in block 0.
fn register_round_the_top() -> Setup {
    let setup = Setup::stctl_in(15, 15, 0x100_0000).word(MICBLOK + 4, 0).word(MICBLOK + 8, 0);
    let setup = setup.control_register_6(0x8000_1400).word(0x1404, 0xFF_FFC2).word(0x1408, VIRTUAL_PSW);
    setup.word(0xFF_FFFE, 0xAFBF_CFDF)
}

/// LRA: the ECBLOK at FFFFFA, so that virtual control register 1 is at FFFFFE to 000001; an instruction at FFFFFE;
/// virtual entries in frame FFF.
fn load_address_edges() -> Vec<Edge> {
    let lra = || Setup::lra().size(0x100_0000);
    let register_1 = lra().word(MICBLOK + 4, 0x00FF_FFFA).word(0xFF_FFFA, VIRTUAL_4K_64K);
    let highest = lra().halfword(FIRST_PAGE_ENTRY, 0xFFF0).halfword(SECOND_PAGE_ENTRY, 0xFFF0);
    vec![
        Edge::new(false, "virtual control register 1 at FFFFFE", &register_1.word(0xFF_FFFE, 0x0312_3840)),
        Edge::new(
            false,
            "instruction at FFFFFE",
            &lra().instruction(0xFF_FFFE, 0xFF_FFFE).halfword(0x00_0000, 0x2010),
        ),
        Edge::new(
            false,
            "virtual entries at FFF910 and FFFD12",
            &highest.word(0xFF_F910, 0x5005_6D08).halfword(0xFF_FD12, 0xFFF0),
        ),
    ]
}
