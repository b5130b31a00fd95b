//! The fields that Figures 7, 11 and 14 have in common: MICRSEG, the real tables and the swap word of one page.
//! Wherever a field is not, another entry leads to a second set of tables.

use super::layout::{around_micblok, MICRSEG};
use super::Field;
use crate::setup::{Setup, MICBLOK, REAL_PAGE_TABLE, REAL_SEGMENT_TABLE, SWAP_TABLE};

/// The second set: segment table, page table (swap address before it), swap table, frame 003000.
const DECOY_SEGMENT_TABLE: u32 = 0x1800;
const DECOY_PAGE_TABLE: u32 = 0x1C10;
const DECOY_SWAP_TABLE: u32 = 0x2400;
const DECOY_PAGE_ENTRY: u16 = 0x0030;

/// Case, segments of 1M, address.
pub const CASES: [(&str, bool, u32); 14] = [
    ("MICRSEG at 0", false, 0x02_3000),
    ("SEGPAGE at 4SX, 64K, SX 00", false, 0x00_3000),
    ("SEGPAGE at 4SX, 64K, SX 02", false, 0x02_5000),
    ("SEGPAGE at 4SX, 64K, SX FF", false, 0xFF_3000),
    ("SEGPAGE at 4SX, 1M, SX 0", true, 0x02_3000),
    ("SEGPAGE at 4SX, 1M, SX 5", true, 0x52_3000),
    ("SEGPAGE at 4SX, 1M, SX F", true, 0xF2_3000),
    ("PAGSWP at -4", false, 0x02_4000),
    ("PAGCORE at 2PX, swap word at 8PX, 64K, PX 0", false, 0x02_0000),
    ("PAGCORE at 2PX, swap word at 8PX, 64K, PX 1", false, 0x02_1000),
    ("PAGCORE at 2PX, swap word at 8PX, 64K, PX F", false, 0x02_F000),
    ("PAGCORE at 2PX, swap word at 8PX, 1M, PX 00", true, 0x50_0000),
    ("PAGCORE at 2PX, swap word at 8PX, 1M, PX 23", true, 0x52_3000),
    ("PAGCORE at 2PX, swap word at 8PX, 1M, PX FF", true, 0x5F_F000),
];

/// A page: which, and what its entry and its swap word are.
#[derive(Clone, Copy)]
pub struct PageOf {
    pub segments_of_1m: bool,
    pub address: u32,
    pub page_entry: u16,
    pub swap_word: u32,
}

impl PageOf {
    fn segment(self) -> u32 {
        self.address >> if self.segments_of_1m { 20 } else { 16 }
    }

    fn page(self) -> u32 {
        self.address >> 12 & if self.segments_of_1m { 0xFF } else { 0xF }
    }

    /// What is added to the words of a case.
    pub fn words(self) -> &'static str {
        if self.segments_of_1m {
            ", bit 31 one"
        } else {
            ""
        }
    }

    pub fn fields(self) -> [Field; 5] {
        [
            MICRSEG,
            Field { name: "SEGPAGE", address: REAL_SEGMENT_TABLE + 4 * self.segment(), length: 4 },
            Field { name: "PAGSWP", address: REAL_PAGE_TABLE - 4, length: 4 },
            Field { name: "PAGCORE", address: REAL_PAGE_TABLE + 2 * self.page(), length: 2 },
            Field { name: "swap word", address: SWAP_TABLE + 8 * self.page(), length: 4 },
        ]
    }

    /// Both sets of tables, and the MICBLOK; of its words only MICRSEG and those kept lead to the first set.
    pub fn put(self, setup: Setup, kept: &[Field]) -> Setup {
        let bit_31 = u32::from(self.segments_of_1m);
        let setup = around_micblok(setup, 0x0F00_0000 | DECOY_SEGMENT_TABLE | bit_31, kept);
        let setup = setup.word(MICBLOK, 0x0F00_0000 | REAL_SEGMENT_TABLE | bit_31);
        self.put_decoy_tables(self.put_tables(setup))
    }

    /// The fields, each between neighbours that lead elsewhere; what is put later stays.
    fn put_tables(self, mut setup: Setup) -> Setup {
        let [_, segment_entry, _, page_entry, swap_word] = self.fields().map(|field| field.address);
        let decoy_segment_entry = 0xF000_0000 | DECOY_PAGE_TABLE;
        for address in [segment_entry - 8, segment_entry - 4, segment_entry + 4, segment_entry + 8] {
            setup = setup.word(address, decoy_segment_entry);
        }
        for address in [REAL_PAGE_TABLE - 12, REAL_PAGE_TABLE - 8, REAL_PAGE_TABLE] {
            setup = setup.word(address, DECOY_SWAP_TABLE);
        }
        for address in [page_entry - 4, page_entry - 2, page_entry + 2, page_entry + 4] {
            setup = setup.halfword(address, DECOY_PAGE_ENTRY);
        }
        for address in [swap_word - 8, swap_word - 4, swap_word + 4, swap_word + 8] {
            setup = setup.word(address, 0x5A6B_7C8D);
        }
        setup
            .word(segment_entry, 0xF000_0000 | REAL_PAGE_TABLE)
            .word(REAL_PAGE_TABLE - 4, SWAP_TABLE)
            .halfword(page_entry, self.page_entry)
            .word(swap_word, self.swap_word)
    }

    fn put_decoy_tables(self, setup: Setup) -> Setup {
        setup
            .word(DECOY_SEGMENT_TABLE + 4 * self.segment(), 0xF000_0000 | DECOY_PAGE_TABLE)
            .word(DECOY_PAGE_TABLE - 4, DECOY_SWAP_TABLE)
            .halfword(DECOY_PAGE_TABLE + 2 * self.page(), DECOY_PAGE_ENTRY)
    }
}
