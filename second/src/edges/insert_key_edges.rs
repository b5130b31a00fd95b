//! ISK edges (document 02, R-4). EC mode, page valid, bit 20 zero, swap word 5AC3AD53 and key 53 but where they say
//! otherwise.

use super::Edge;
use crate::setup::{
    Setup, MICBLOK, PAGE_ENTRY, REAL_PAGE_TABLE, REAL_SEGMENT_TABLE, SEGMENT_ENTRY, SWAP_ADDRESS, SWAP_TABLE,
    SWAP_WORD, VIRTUAL_BC, VIRTUAL_EC,
};

pub fn edges() -> Vec<Edge> {
    let mut edges = figure_6_edges();
    edges.extend(register_edges());
    edges.extend(not_in_storage_edges());
    edges.extend(virtual_psw_not_in_storage_edges());
    edges.extend(refusal_edges());
    edges.extend(segment_edges());
    edges.extend(page_entry_edges());
    edges.extend(own_block_edges());
    edges
}

fn edge(case: &str, setup: &Setup) -> Edge {
    Edge::new(false, case, setup)
}

fn isk() -> Setup {
    Setup::isk(VIRTUAL_EC)
}

/// The same of the upper half of the page: key 3 is A5, key 2 is 00.
fn bit_20_one(setup: Setup) -> Setup {
    setup.register(4, 0x5A02_3800).key(2, 0x00).key(3, 0xA5)
}

/// The page's entry with its bit 12 one.
fn page_invalid(setup: Setup) -> Setup {
    setup.halfword(PAGE_ENTRY, 0x0018)
}

/// The rows of the figure: mode, page, bit 20.
fn figure_6_edges() -> Vec<Edge> {
    let mut edges = Vec::new();
    for (mode, second_byte) in [("EC", VIRTUAL_EC), ("BC", VIRTUAL_BC)] {
        let valid = Setup::isk(second_byte);
        for (page, setup) in [("valid", valid.clone()), ("invalid", page_invalid(valid))] {
            let case = |bit_20: &str| format!("{mode}, page {page}, {bit_20}");
            edges.push(edge(&case("bit 20 zero, swap word 5AC3AD53, key 53"), &setup));
            edges.push(edge(&case("bit 20 one, swap word 5AC3AD53, key A5"), &bit_20_one(setup)));
        }
    }
    let neither_bit = isk().word(SWAP_WORD, 0x5AC3_A9FF).key(2, 0x50);
    edges.push(edge("EC, page valid, bit 20 zero, swap word 5AC3A9FF, key 50", &neither_bit));
    edges
}

fn register_edges() -> Vec<Edge> {
    let both = |number: u16| {
        let mut setup = isk().register(usize::from(number), 0x5A02_3000);
        setup.first_halfword = 0x0900 | number << 4 | number;
        edge(&format!("R1 and R2 register {number}"), &setup)
    };
    vec![both(4), both(15), both(0)]
}

/// The fields in the order in which they are tried, and the key block.
fn not_in_storage_edges() -> Vec<Edge> {
    vec![
        edge("MICBLOK at 4000", &isk().control_register_6(0x8000_4000)),
        edge("segment table at 4000", &isk().word(MICBLOK, 0x0000_4000)),
        edge("page table at 0, the swap table's address at FFFFFC", &isk().word(SEGMENT_ENTRY, 0xF000_0000)),
        // Page 3's word is at 3FE7 + 18 = 3FFF.
        edge("swap word at 3FFF", &isk().word(SWAP_ADDRESS, 0x0000_3FE7)),
        edge("page table at 4000", &isk().word(SEGMENT_ENTRY, 0xF000_4000).word(0x3FFC, SWAP_TABLE)),
        edge("page in frame 0FF", &isk().halfword(PAGE_ENTRY, 0x0FF0)),
    ]
}

/// With an invalid page no key is tried before them.
fn virtual_psw_not_in_storage_edges() -> Vec<Edge> {
    let micvpsw = isk().control_register_6(0x8000_3FF8).word(0x3FF8, REAL_SEGMENT_TABLE);
    let virtual_psw = isk().word(MICBLOK + 8, 0x0000_3FFF);
    vec![
        edge("page valid, MICVPSW at 4000", &micvpsw),
        edge("page invalid, MICVPSW at 4000", &page_invalid(micvpsw.clone())),
        edge("page valid, virtual PSW at 3FFF", &virtual_psw),
        edge("page invalid, virtual PSW at 3FFF", &page_invalid(virtual_psw.clone())),
    ]
}

fn refusal_edges() -> Vec<Edge> {
    vec![
        edge("R2 bits 28-31 0001", &isk().register(4, 0x5A02_3001)),
        edge("control register 6 bits 0-3 1010", &isk().control_register_6(0xA000_0400)),
        edge("control register 6 bits 0-3 1001", &isk().control_register_6(0x9000_0400)),
        edge("MICRSEG bit 30 one", &isk().word(MICBLOK, REAL_SEGMENT_TABLE | 2)),
    ]
}

/// Address 123000: segment 12, page 3 of 64K segments; segment 1, page 23 of 1M segments.
fn segment_edges() -> Vec<Edge> {
    let entry = 0xF000_0000 | REAL_PAGE_TABLE;
    let setup = isk().register(4, 0x5A12_3000);
    let of_64k = setup.clone().word(REAL_SEGMENT_TABLE + 4 * 0x12, entry);
    let of_1m = setup.word(REAL_SEGMENT_TABLE + 4, entry).word(MICBLOK, REAL_SEGMENT_TABLE | 1);
    let of_1m = of_1m.halfword(REAL_PAGE_TABLE + 2 * 0x23, 0x0010).word(SWAP_TABLE + 8 * 0x23, 0x5AC3_AD53);
    vec![
        edge("64K segments, length 00, address 123000", &of_64k),
        edge(
            "64K segments, length 01, address 123000",
            &of_64k.clone().word(MICBLOK, 0x0100_0000 | REAL_SEGMENT_TABLE),
        ),
        edge("1M segments, length 00, address 123000", &of_1m),
    ]
}

/// Valid with bit 13 one; invalid with bits 13-14 one.
fn page_entry_edges() -> Vec<Edge> {
    vec![
        edge("page entry 0014", &isk().halfword(PAGE_ENTRY, 0x0014)),
        edge("page entry 001E", &isk().halfword(PAGE_ENTRY, 0x001E)),
    ]
}

/// What is fetched before step 11 shows in the key that is read there; what is fetched after it does not.
fn own_block_edges() -> Vec<Edge> {
    let micblok = isk().halfword(PAGE_ENTRY, 0x0000).key(0, 0x50).key(2, 0x00).word(SWAP_WORD, 0x5AC3_A9FF);
    let tables = isk().halfword(PAGE_ENTRY, 0x0000).register(4, 0x5A02_3800).key(1, 0x50).key(2, 0x00);
    let virtual_psw = isk().word(MICBLOK + 8, 0x0000_1600).word(0x1600, 0x0008_0000).key(2, 0x50);
    vec![
        edge("MICBLOK in the page's own block", &micblok),
        edge("tables in the page's own block", &tables.word(SWAP_WORD, 0x5AC3_FFA9)),
        edge("virtual PSW in the page's own block", &virtual_psw.word(SWAP_WORD, 0x5AC3_A9FF)),
    ]
}
