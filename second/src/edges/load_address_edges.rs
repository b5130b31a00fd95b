//! LRA edges (document 02, R-9): condition codes by format, entry addresses round the top, registers. Virtual and real
//! 4K pages and 64K segments, address 345E78, every entry valid, R1 register 3, no index, condition code 1 but where
//! they say otherwise.

use super::Edge;
use crate::setup::{
    Setup, ECBLOK, INSTRUCTION, MICBLOK, MICRSEG, MICRSEG_1M, MICRSEG_2K, REAL_SEGMENT_TABLE,
    SECOND_PAGE_TABLE, VIRTUAL_2K_1M, VIRTUAL_2K_64K, VIRTUAL_4K_1M, VIRTUAL_4K_64K, VIRTUAL_PAGE_ENTRY,
    VIRTUAL_PAGE_ENTRY_1M, VIRTUAL_PAGE_ENTRY_2K, VIRTUAL_PAGE_ENTRY_2K_1M, VIRTUAL_PAGE_TABLE_REAL,
    VIRTUAL_SEGMENT_ENTRY, VIRTUAL_SEGMENT_ENTRY_1M, VIRTUAL_SEGMENT_TABLE_REAL,
};

pub fn edges() -> Vec<Edge> {
    let mut edges = Vec::new();
    for (real_pages, micrseg) in [("4K", MICRSEG), ("2K", MICRSEG | MICRSEG_2K)] {
        for format in &FORMATS {
            edges.extend(format.edges(real_pages, micrseg));
        }
    }
    edges.extend(real_1m_edges());
    edges.extend(virtual_entries_round_the_top());
    edges.extend(real_entries_round_the_top());
    edges.extend(index_edges());
    edges.extend(result_register_edges());
    edges
}

fn edge(case: &str, setup: &Setup) -> Edge {
    Edge::new(false, case, setup)
}

/// A virtual format with its entries in storage, and what a case puts there.
struct VirtualFormat {
    words: &'static str,
    virtual_control_register_0: u32,
    segment_entry: u32,
    segment_invalid: u32,
    /// Too short by one, and the length that it then has.
    too_short: (u32, u32),
    page_entry: u32,
    page_invalid: u16,
}

const FORMATS: [VirtualFormat; 4] = [
    VirtualFormat {
        words: "virtual pages 2K, segments 64K",
        virtual_control_register_0: VIRTUAL_2K_64K,
        segment_entry: VIRTUAL_SEGMENT_ENTRY,
        segment_invalid: 0x5005_6D09,
        too_short: (0x4005_6D08, 4),
        page_entry: VIRTUAL_PAGE_ENTRY_2K,
        page_invalid: 0x567C,
    },
    VirtualFormat {
        words: "virtual pages 2K, segments 1M",
        virtual_control_register_0: VIRTUAL_2K_1M,
        segment_entry: VIRTUAL_SEGMENT_ENTRY_1M,
        segment_invalid: 0x4005_6D09,
        too_short: (0x3005_6D08, 3),
        page_entry: VIRTUAL_PAGE_ENTRY_2K_1M,
        page_invalid: 0x9AB4,
    },
    VirtualFormat {
        words: "virtual pages 4K, segments 64K",
        virtual_control_register_0: VIRTUAL_4K_64K,
        segment_entry: VIRTUAL_SEGMENT_ENTRY,
        segment_invalid: 0x5005_6D09,
        too_short: (0x4005_6D08, 4),
        page_entry: VIRTUAL_PAGE_ENTRY,
        page_invalid: 0xABC8,
    },
    VirtualFormat {
        words: "virtual pages 4K, segments 1M",
        virtual_control_register_0: VIRTUAL_4K_1M,
        segment_entry: VIRTUAL_SEGMENT_ENTRY_1M,
        segment_invalid: 0x4005_6D09,
        too_short: (0x3005_6D08, 3),
        page_entry: VIRTUAL_PAGE_ENTRY_1M,
        page_invalid: 0x1238,
    },
];

impl VirtualFormat {
    /// Five cases. The condition code is 2 before the call where the segment entry is invalid, here and elsewhere.
    fn edges(&self, real_pages: &str, micrseg: u32) -> Vec<Edge> {
        let valid = Setup::lra_of(self.virtual_control_register_0, micrseg);
        let (too_short, length) = self.too_short;
        let one = |case: String, setup: Setup| {
            edge(&format!("{}, real pages {real_pages}{case}", self.words), &setup)
        };
        vec![
            one(String::new(), valid.clone()),
            one(
                ", segment entry invalid".into(),
                valid.clone().word(self.segment_entry, self.segment_invalid).condition_code(2),
            ),
            one(", page entry invalid".into(), valid.clone().halfword(self.page_entry, self.page_invalid)),
            one(", segment-table length 02".into(), valid.clone().word(ECBLOK + 4, 0x0212_3840)),
            one(format!(", page-table length {length}"), valid.word(self.segment_entry, too_short)),
        ]
    }
}

/// Real 1M segments: the length, which would be too short for 64K, is 00.
fn real_1m_edges() -> Vec<Edge> {
    let of_1m = |bits: u32| Setup::lra().word(MICBLOK, REAL_SEGMENT_TABLE | MICRSEG_1M | bits);
    vec![
        edge("real pages 4K, segments 1M, MICRSEG length 00", &of_1m(0)),
        edge("real pages 2K, segments 1M, MICRSEG length 00", &of_1m(MICRSEG_2K)),
    ]
}

/// FFFFC0 + 4 * 34 = 000090, FFFFF8 + 2 * 5 = 000002: page 0 of real segment 0, here in frame 002.
fn virtual_entries_round_the_top() -> Vec<Edge> {
    let page_0 = Setup::lra().halfword(SECOND_PAGE_TABLE, 0x0020);
    let segment_table = page_0.clone().word(ECBLOK + 4, 0x03FF_FFC0);
    let page_table = page_0.word(VIRTUAL_SEGMENT_ENTRY, 0x50FF_FFF8);
    let both = segment_table.clone().word(0x2090, 0x50FF_FFF8).halfword(0x2002, 0xABC0);
    vec![
        edge("virtual segment table at FFFFC0, virtual page table at FFFFF8", &both),
        edge(
            "virtual segment table at FFFFC0, segment entry invalid",
            &segment_table.word(0x2090, 0x5005_6D09).condition_code(2),
        ),
        edge("virtual segment table at FFFFC0, length 02", &Setup::lra().word(ECBLOK + 4, 0x02FF_FFC0)),
        edge("virtual page table at FFFFF8, page entry invalid", &page_table.halfword(0x2002, 0xABC8)),
        edge(
            "virtual page table at FFFFF8, page-table length 4",
            &Setup::lra().word(VIRTUAL_SEGMENT_ENTRY, 0x40FF_FFF8),
        ),
    ]
}

/// FFFFC0 + 4 * 12 = 000008 and FFFFC0 + 4 * 13 = 00000C; the virtual page table is in segment 13. 2K pages:
/// FFFFF8 + 2 * 7 = 000006 and FFFFF8 + 2 * 0D = 000012.
fn real_entries_round_the_top() -> Vec<Edge> {
    let segments = Setup::lra().word(MICBLOK, 0x01FF_FFC0).word(VIRTUAL_SEGMENT_ENTRY, 0x5013_6D08);
    let segments = segments.word(0x0008, 0x3000_0C10).word(0x000C, 0x6000_0D00);
    let pages = Setup::lra().word(MICBLOK, MICRSEG | MICRSEG_2K);
    let pages = pages.word(REAL_SEGMENT_TABLE + 4 * 0x12, 0x30FF_FFF8).halfword(0x0006, 0x0028);
    let pages = pages.word(REAL_SEGMENT_TABLE + 4 * 0x05, 0x60FF_FFF8).halfword(0x0012, 0x0018);
    vec![
        edge("real segment table at FFFFC0", &segments),
        edge("real pages 2K, real page tables at FFFFF8", &pages),
    ]
}

/// Base 222A18 and index 123450, or twice 1A2F34, with displacement 010; FFFFFF + FFFFFF + FFF = 000FFD, for which
/// virtual segment 0 and page 0 have their entries.
fn index_edges() -> Vec<Edge> {
    let round = Setup::lra().first_halfword(0xB135).halfword(INSTRUCTION + 2, 0x2FFF);
    let round = round.register(2, 0xFFFF_FFFF).register(5, 0xFFFF_FFFF);
    let round = round.word(VIRTUAL_SEGMENT_TABLE_REAL, 0x0005_6D08).halfword(VIRTUAL_PAGE_TABLE_REAL, 0xABC0);
    let no_base = Setup::lra().first_halfword(0xB135).halfword(INSTRUCTION + 2, 0x0010);
    let no_base = no_base.register(2, 0).register(5, 0x5A34_5E68).register(0, 0x5A11_1111);
    vec![
        edge("index register 5", &with_index_5().first_halfword(0xB135)),
        edge("index 0, register 0 5A111111", &Setup::lra().register(0, 0x5A11_1111)),
        edge("base 0, index register 5, register 0 5A111111", &no_base),
        edge("index and base register 2", &Setup::lra().first_halfword(0xB132).register(2, 0x5A1A_2F34)),
        edge("base FFFFFFFF, index FFFFFFFF, displacement FFF", &round),
    ]
}

fn with_index_5() -> Setup {
    Setup::lra().register(2, 0x5A22_2A18).register(5, 0xA512_3450)
}

fn result_register_edges() -> Vec<Edge> {
    let all_15 = Setup::lra().first_halfword(0xB1FF).halfword(INSTRUCTION + 2, 0xF010);
    vec![
        edge("R1 and index register 5", &with_index_5().first_halfword(0xB155)),
        edge("R1 and base register 2", &Setup::lra().first_halfword(0xB120)),
        edge("R1, index and base register 15", &all_15.register(15, 0x5A1A_2F34)),
        edge("R1 register 0, index 0", &Setup::lra().first_halfword(0xB100).register(0, 0x5A11_1111)),
    ]
}
