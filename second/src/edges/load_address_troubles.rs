//! LRA edges (document 02, R-9): what is not in storage, refusals, the second halfword, recording. Set-ups as in
//! `load_address_edges`.

use super::Edge;
use crate::setup::{
    Setup, ECBLOK, FIRST_PAGE_ENTRY, FIRST_PAGE_ENTRY_2K, FIRST_SEGMENT_ENTRY, MICBLOK, MICRSEG, MICRSEG_2K,
    REAL_SEGMENT_TABLE, SECOND_PAGE_ENTRY, SECOND_PAGE_ENTRY_2K, SECOND_SEGMENT_ENTRY, VIRTUAL_2K_64K,
    VIRTUAL_4K_64K, VIRTUAL_PAGE_ENTRY, VIRTUAL_PAGE_ENTRY_2K, VIRTUAL_SEGMENT_ENTRY, VIRTUAL_SEGMENT_TABLE,
};

pub fn edges() -> Vec<Edge> {
    let mut edges = not_in_storage_edges();
    edges.extend(virtual_entry_not_in_storage_edges());
    edges.extend(first_walk_edges());
    edges.extend(second_walk_edges());
    edges.extend(real_2k_edges());
    edges.extend(virtual_entry_format_edges());
    edges.extend(virtual_control_register_0_edges());
    edges.extend(second_halfword_edges());
    edges.extend(control_register_6_edges());
    edges.extend(recording_edges());
    edges.push(edge("first halfword B030", &lra().first_halfword(0xB030)));
    edges
}

fn edge(case: &str, setup: &Setup) -> Edge {
    Edge::new(false, case, setup)
}

fn lra() -> Setup {
    Setup::lra()
}

/// The control program's fields in the order in which they are tried. MICCREG, the second, is in one doubleword with
/// MICRSEG, so that it is in storage if MICRSEG is.
fn not_in_storage_edges() -> Vec<Edge> {
    let last = lra().control_register_6(0x8000_3FF8).word(0x3FF8, MICRSEG).word(0x3FFC, ECBLOK);
    // Segment 12 at 3F80 + 48 = 3FC8, segment 20 at 4000; the virtual page table is in segment 20.
    let at_the_end = lra().word(MICBLOK, 0x0200_3F80).word(0x3FC8, 0x3000_0C10);
    vec![
        edge("MICBLOK at 4000", &lra().control_register_6(0x8000_4000)),
        edge("MICBLOK at 3FF8, MICCREG at 3FFC", &last),
        edge("ECBLOK at 4000", &lra().word(MICBLOK + 4, 0x4000)),
        edge("ECBLOK at 3FFC", &ecblok_at_3ffc(VIRTUAL_4K_64K)),
        edge("real segment table at 4000", &lra().word(MICBLOK, 0x0100_4000)),
        edge("real page table of the first walk at 4000", &lra().word(FIRST_SEGMENT_ENTRY, 0x3000_4000)),
        edge(
            "real segment entry of the first walk at 3FC8, of the second at 4000",
            &at_the_end.word(VIRTUAL_SEGMENT_ENTRY, 0x5020_6D08),
        ),
        edge("real page table of the second walk at 4000", &lra().word(SECOND_SEGMENT_ENTRY, 0x6000_4000)),
    ]
}

fn ecblok_at_3ffc(virtual_control_register_0: u32) -> Setup {
    lra().word(MICBLOK + 4, 0x3FFC).word(0x3FFC, virtual_control_register_0)
}

/// Real pages in frame 004.
fn virtual_entry_not_in_storage_edges() -> Vec<Edge> {
    vec![
        edge("virtual segment entry at 4910", &lra().halfword(FIRST_PAGE_ENTRY, 0x0040)),
        edge("virtual page entry at 4D12", &lra().halfword(SECOND_PAGE_ENTRY, 0x0040)),
    ]
}

/// For the virtual segment entry, at virtual 123910: segment 12, page 3.
fn first_walk_edges() -> Vec<Edge> {
    vec![
        edge("first walk, MICRSEG length 00", &lra().word(MICBLOK, REAL_SEGMENT_TABLE)),
        edge("first walk, real segment entry invalid", &lra().word(FIRST_SEGMENT_ENTRY, 0x3000_0C11)),
        edge("first walk, real segment entry bits 4-7 0001", &lra().word(FIRST_SEGMENT_ENTRY, 0x3100_0C10)),
        edge("first walk, real page-table length 2", &lra().word(FIRST_SEGMENT_ENTRY, 0x2000_0C10)),
        edge("first walk, real page entry invalid", &lra().halfword(FIRST_PAGE_ENTRY, 0x0028)),
        edge("first walk, real page entry bit 13 one", &lra().halfword(FIRST_PAGE_ENTRY, 0x0024)),
    ]
}

/// For the virtual page entry, at virtual 056D12: segment 05, page 6; at 256D12 address bits 8-11 are 2.
fn second_walk_edges() -> Vec<Edge> {
    vec![
        edge(
            "second walk, virtual page table at 256D08, MICRSEG length 01",
            &lra().word(VIRTUAL_SEGMENT_ENTRY, 0x5025_6D08),
        ),
        edge("second walk, real segment entry invalid", &lra().word(SECOND_SEGMENT_ENTRY, 0x6000_0D01)),
        edge("second walk, real segment entry bits 4-7 1000", &lra().word(SECOND_SEGMENT_ENTRY, 0x6800_0D00)),
        edge("second walk, real page-table length 5", &lra().word(SECOND_SEGMENT_ENTRY, 0x5000_0D00)),
        edge("second walk, real page entry invalid", &lra().halfword(SECOND_PAGE_ENTRY, 0x0018)),
        edge("second walk, real page entry bit 14 one", &lra().halfword(SECOND_PAGE_ENTRY, 0x0012)),
    ]
}

/// Bit 13 is the invalid bit, bit 14 the format's.
fn real_2k_edges() -> Vec<Edge> {
    let of_2k = lra().word(MICBLOK, MICRSEG | MICRSEG_2K);
    vec![
        edge(
            "real pages 2K, first walk, real page entry bit 13 one",
            &of_2k.clone().halfword(FIRST_PAGE_ENTRY_2K, 0x002C),
        ),
        edge(
            "real pages 2K, second walk, real page entry bit 14 one",
            &of_2k.halfword(SECOND_PAGE_ENTRY_2K, 0x001A),
        ),
    ]
}

/// Invalid comes before the format, the format before the page table's length.
fn virtual_entry_format_edges() -> Vec<Edge> {
    let of_2k = lra().word(ECBLOK, VIRTUAL_2K_64K);
    vec![
        edge("virtual segment entry bits 4-7 0001", &lra().word(VIRTUAL_SEGMENT_ENTRY, 0x5105_6D08)),
        edge(
            "virtual segment entry invalid, bits 4-7 1000",
            &lra().word(VIRTUAL_SEGMENT_ENTRY, 0x5805_6D09).condition_code(2),
        ),
        edge(
            "virtual segment entry bits 4-7 1000, page-table length 4",
            &lra().word(VIRTUAL_SEGMENT_ENTRY, 0x4805_6D08),
        ),
        edge("virtual page entry bit 13 one", &lra().halfword(VIRTUAL_PAGE_ENTRY, 0xABC4)),
        edge("virtual page entry invalid, bits 13-14 11", &lra().halfword(VIRTUAL_PAGE_ENTRY, 0xABCE)),
        edge("virtual pages 2K, page entry bit 14 one", &of_2k.halfword(VIRTUAL_PAGE_ENTRY_2K, 0x567A)),
    ]
}

/// After both virtual control registers have been fetched, before the second halfword.
fn virtual_control_register_0_edges() -> Vec<Edge> {
    vec![
        edge("virtual control register 0 bits 8-12 00000", &lra().word(ECBLOK, 0)),
        edge("virtual control register 0 FF87FFFF", &lra().word(ECBLOK, 0xFF87_FFFF)),
        edge(
            "virtual control register 0 bits 8-12 00000, second halfword not in storage",
            &lra().word(ECBLOK, 0).instruction(0x3FFE, 0x3FFE),
        ),
        edge("virtual control register 0 bits 8-12 00000, ECBLOK at 3FFC", &ecblok_at_3ffc(0)),
    ]
}

/// Access exceptions as themselves. DAT is for the second halfword alone; its tables are at 3000 and 3400.
fn second_halfword_edges() -> Vec<Edge> {
    let outside = lra().instruction(0x3FFE, 0x3FFE);
    let dat_on = lra().dat(0b10000).map(0x1000, 0x1000);
    let dat_of_2k_1m = lra().dat(0b01010).map(0x1000, 0x1000);
    vec![
        edge("second halfword not in storage", &outside),
        edge(
            "second halfword not in storage, real segment table at 4000",
            &outside.clone().word(MICBLOK, 0x0100_4000),
        ),
        edge("second halfword fetch-protected", &lra().psw_key(1).key(2, 0x28)),
        edge("DAT on, control register 0 bits 8-12 00000", &lra().dat(0b00000)),
        edge("DAT on, second halfword's segment invalid", &dat_on.clone().word(0x3000, 0xF000_3401)),
        edge("DAT on, second halfword's page invalid", &dat_on.halfword(0x3402, 0x0018)),
        edge("DAT on, pages 2K, segments 1M, instruction's page at 1000", &dat_of_2k_1m),
    ]
}

fn control_register_6_edges() -> Vec<Edge> {
    vec![
        edge("control register 6 bits 0-3 1010", &lra().control_register_6(0xA000_0400)),
        edge("control register 6 bits 0-3 1001", &lra().control_register_6(0x9000_0400)),
        edge("control register 6 bits 0-3 1100", &lra().control_register_6(0xC000_0400)),
    ]
}

/// All that LRA does to keys is to set reference bits. Only the second halfword is fetched with the PSW key.
fn recording_edges() -> Vec<Edge> {
    let with_keys = |setup: Setup, key: u8| (0..8).fold(setup, |setup, block| setup.key(block, key));
    let across = lra().word(MICBLOK + 4, 0x37FA).word(0x37FA, VIRTUAL_4K_64K);
    vec![
        edge("all keys F3", &with_keys(lra(), 0xF3)),
        edge(
            "PSW key 1, all keys FB but key 2, which is 18",
            &with_keys(lra().psw_key(1), 0xFB).key(2, 0x18),
        ),
        edge(
            "virtual control register 1 across a block boundary",
            &across.word(0x37FE, 0x0300_0000 | VIRTUAL_SEGMENT_TABLE),
        ),
        edge(
            "all keys F3, real page entry of the second walk invalid",
            &with_keys(lra(), 0xF3).halfword(SECOND_PAGE_ENTRY, 0x0018),
        ),
    ]
}
