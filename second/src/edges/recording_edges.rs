//! Edges of reference and change recording (document 02, R-13). All keys are 00 but where a set-up gives them.

use super::Edge;
use crate::setup::{Setup, MICBLOK, PAGE_ENTRY, SWAP_ADDRESS, VIRTUAL_EC};

pub fn edges() -> Vec<Edge> {
    let mut edges = storage_key_edges();
    edges.extend(store_control_across());
    edges.extend(kept_after_an_ending());
    edges
}

/// The key that SSK reads has what its own fetches recorded; it is set before the swap word is stored.
fn storage_key_edges() -> Vec<Edge> {
    // Frame 000: the lower half is block 0 with the MICBLOK, the upper half block 1 with the tables.
    let micblok_block = Setup::ssk().halfword(PAGE_ENTRY, 0x0000);
    let mut table_block = micblok_block.clone();
    table_block.guest.general_registers[4] = 0x5A02_3800;
    // Page 3's word is at FE6 + 18 = FFE; its last two bytes are those of the instruction, 08 and 34.
    let across = Setup::ssk().word(SWAP_ADDRESS, 0x0FE6);
    vec![
        Edge::new(false, "tables in the page's own block", &table_block),
        Edge::new(false, "MICBLOK in the page's own block", &micblok_block),
        Edge::new(false, "swap word across a block boundary, page in the second block", &across),
    ]
}

/// ECBLOK at 7C2: register 15 is at 7FE to 801.
fn store_control_across() -> Vec<Edge> {
    let across = Setup::stctl(15, 15).word(MICBLOK + 4, 0x07C2).word(0x07FE, 0xAFBF_CFDF);
    vec![Edge::new(false, "register 15 across a block boundary", &across)]
}

/// What was recorded before an ending stays; an item not in storage, and a store test, record nothing.
fn kept_after_an_ending() -> Vec<Edge> {
    let refused = Setup::stnsm([0x07, VIRTUAL_EC], 0xF8).word(MICBLOK + 8, 0x2800);
    let refused = refused.halfword(0x2800, 0x0708).key(0, 0xF9).key(5, 0x02);
    let outside = Setup::ssm([0x04, VIRTUAL_EC], 0x07).word(MICBLOK + 8, 0x3FFF);
    let protected = Setup::stctl(6, 7).operand(0x27FC).psw_key(1).key(2, 0x10).key(4, 0x10).key(5, 0x20);
    vec![
        Edge::new(
            false,
            "EC, old 07, AND F8, refused after two fetches, whose reference bits stay",
            &refused,
        ),
        Edge::new(false, "virtual PSW partly not in storage records nothing there", &outside),
        Edge::new(
            false,
            "words in two blocks, the second protected: the store test records nothing",
            &protected,
        ),
    ]
}
