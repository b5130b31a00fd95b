//! RRB edges (document 02, R-4). Page valid, bit 20 zero, swap word 50C3FDFF and key 4 FB but where they say otherwise.

use super::Edge;
use crate::setup::{
    Setup, MICBLOK, PAGE_ENTRY, REAL_SEGMENT_TABLE, SEGMENT_ENTRY, SWAP_ADDRESS, SWAP_TABLE, SWAP_WORD,
};

/// Key, swap word, bit 20.
const FIGURE_10: [(u8, u32, bool); 15] = [
    (0xF9, 0x50C3_F9FF, false),
    (0xFB, 0x50C3_F9FF, false),
    (0xFD, 0x50C3_F9FF, false),
    (0xFF, 0x50C3_F9FF, false),
    (0xF9, 0x50C3_FBFF, false),
    (0xF9, 0x50C3_FDFF, false),
    (0xF9, 0x50C3_FFFF, false),
    (0xFB, 0x50C3_FDFF, false),
    (0xFD, 0x50C3_FBFF, false),
    (0xF9, 0x50C3_FFF9, true),
    (0xFB, 0x50C3_FFF9, true),
    (0xFD, 0x50C3_FFF9, true),
    (0xFF, 0x50C3_FFF9, true),
    (0xF9, 0x50C3_FFFF, true),
    (0xF9, 0x5FC3_F9F9, false),
];

/// The same of an invalid page.
const PAGE_INVALID: [(u32, bool); 3] = [(0x50C3_FFFF, false), (0x50C3_FFFF, true), (0x5FC3_F9F9, true)];

pub fn edges() -> Vec<Edge> {
    let mut edges: Vec<Edge> = FIGURE_10.into_iter().map(figure_10_edge).collect();
    edges.extend(PAGE_INVALID.map(page_invalid_edge));
    let last_byte = Setup::rrb().operand(0x02_3FFF).word(SWAP_WORD, 0x50C3_FFFD).key(4, 0x00).key(5, 0xFB);
    edges.push(edge("operand 023FFF", &last_byte));
    edges.extend(not_in_storage_edges());
    edges.extend(second_halfword_edges());
    edges.extend(control_register_6_edges());
    edges.extend(own_block_edges());
    edges.push(edge("DAT on, instruction's page in frame 001", &dat_on()));
    edges.extend([0xB212, 0xB214].map(other_code_edge));
    edges
}

fn edge(case: &str, setup: &Setup) -> Edge {
    Edge::new(false, case, setup)
}

fn bit_20_words(bit_20: bool) -> &'static str {
    if bit_20 {
        "bit 20 one"
    } else {
        "bit 20 zero"
    }
}

/// Operand 023800 for bit 20 one.
fn rrb(swap_word: u32, bit_20: bool) -> Setup {
    Setup::rrb().operand(0x02_3000 | u32::from(bit_20) << 11).word(SWAP_WORD, swap_word)
}

/// The key is that of block 4, or 5 for bit 20 one; the other is 00.
fn figure_10_edge((key, swap_word, bit_20): (u8, u32, bool)) -> Edge {
    let case = format!("key {key:02X}, swap word {swap_word:08X}, {}", bit_20_words(bit_20));
    edge(&case, &rrb(swap_word, bit_20).key(4, 0x00).key(4 + u32::from(bit_20), key))
}

fn page_invalid_edge((swap_word, bit_20): (u32, bool)) -> Edge {
    let case = format!("page invalid, swap word {swap_word:08X}, {}", bit_20_words(bit_20));
    edge(&case, &rrb(swap_word, bit_20).halfword(PAGE_ENTRY, 0x0028).key(4, 0xFF).key(5, 0xFF))
}

/// The fields in the order in which they are tried, and the key block.
fn not_in_storage_edges() -> Vec<Edge> {
    let rrb = Setup::rrb;
    vec![
        edge("MICBLOK at 4000", &rrb().control_register_6(0x8000_4000)),
        edge("segment table at 4000", &rrb().word(MICBLOK, 0x0000_4000)),
        edge("page table at 0, the swap table's address at FFFFFC", &rrb().word(SEGMENT_ENTRY, 0xF000_0000)),
        // Page 3's word is at 3FE7 + 18 = 3FFF.
        edge("swap word at 3FFF", &rrb().word(SWAP_ADDRESS, 0x0000_3FE7)),
        edge("page table at 4000", &rrb().word(SEGMENT_ENTRY, 0xF000_4000).word(0x3FFC, SWAP_TABLE)),
        edge("page in frame 0FF", &rrb().halfword(PAGE_ENTRY, 0x0FF0)),
    ]
}

/// Access exceptions as themselves, after MICRSEG's test and before the walk.
fn second_halfword_edges() -> Vec<Edge> {
    let outside = Setup::rrb().instruction(0x3FFE, 0x3FFE);
    vec![
        edge("second halfword not in storage", &outside),
        edge("second halfword fetch-protected", &Setup::rrb().psw_key(1).key(2, 0x28)),
        edge("second halfword's page invalid", &dat_on().halfword(0x3402, 0x0018)),
        edge(
            "second halfword not in storage, MICRSEG bit 30 one",
            &outside.clone().word(MICBLOK, REAL_SEGMENT_TABLE | 2),
        ),
        edge(
            "second halfword not in storage, segment table at 4000",
            &outside.clone().word(MICBLOK, 0x0000_4000),
        ),
    ]
}

/// 4K pages, 64K segments: pages 1 and 2 are in frames 001 and 002; the entry of page 1 is at 3402.
fn dat_on() -> Setup {
    Setup::rrb().dat(0b10000).map(0x2000, 0x2000).map(0x1000, 0x1000)
}

fn control_register_6_edges() -> Vec<Edge> {
    vec![
        edge("control register 6 bits 0-3 1010", &Setup::rrb().control_register_6(0xA000_0400)),
        edge("control register 6 bits 0-3 1001", &Setup::rrb().control_register_6(0x9000_0400)),
        edge("control register 6 bits 0-3 1100", &Setup::rrb().control_register_6(0xC000_0400)),
    ]
}

/// What is fetched before step 12 shows in the key that is read there.
fn own_block_edges() -> Vec<Edge> {
    let instruction = rrb(0x50C3_F9FF, false).halfword(PAGE_ENTRY, 0x0010).key(2, 0xF9).key(4, 0x00);
    let tables = rrb(0x50C3_FFF9, true).halfword(PAGE_ENTRY, 0x0000).key(1, 0xF9).key(4, 0x00);
    vec![
        edge("instruction in the page's own block", &instruction),
        edge("tables in the page's own block", &tables),
    ]
}

/// B2 with another second byte is no assisted instruction.
fn other_code_edge(first_halfword: u16) -> Edge {
    let mut setup = Setup::rrb();
    setup.first_halfword = first_halfword;
    edge(&format!("first halfword {first_halfword:04X}"), &setup)
}
