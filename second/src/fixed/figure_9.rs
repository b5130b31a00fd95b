//! Figure 9: fields of LRA. Wherever a field is not, another word or entry leads elsewhere; the frame to which a wrong
//! real entry leads has other virtual entries.

use super::layout::{around_micblok, extcr, translated, MICCREG, MICRSEG};
use super::{Field, FixedList};
use crate::setup::{Setup, ECBLOK, MICBLOK, REAL_SEGMENT_TABLE};

/// Page tables of the first and of the second walk; frames of the virtual segment entry and of the virtual page entry,
/// in pages of 4K and of 2K.
const PAGE_TABLES: [u32; 2] = [0x1800, 0x1C00];
const FRAMES: [u32; 2] = [0x2000, 0x3000];

/// Where wrong words and entries lead: MICRSEG and MICCREG to 1400, where a segment table and virtual control registers
/// lie over each other; a segment entry to 1600; a page entry to frame 7000.
const DECOY: u32 = 0x1400;
const DECOY_PAGE_TABLE: u32 = 0x1600;
const DECOY_FRAME: u32 = 0x7000;
const DECOY_PAGE_ENTRY: u16 = 0x0070;

/// What the virtual page entries are that a wrong turn comes to.
const WRONG_ENTRY: u16 = 0xDEC0;

/// Page and segment size as shifts: 11 or 12, 16 or 20.
#[derive(Clone, Copy)]
struct Sizes {
    page: u32,
    segment: u32,
}

impl Sizes {
    fn segment_index(self, address: u32) -> u32 {
        address >> self.segment
    }

    fn page_index(self, address: u32) -> u32 {
        (address & ((1 << self.segment) - 1)) >> self.page
    }

    /// Control register 0 with this format.
    fn register_0(self) -> u32 {
        let page = if self.page == 12 { 0x0080_0000 } else { 0x0040_0000 };
        page | if self.segment == 20 { 0x0010_0000 } else { 0 }
    }

    /// MICRSEG bits 30 and 31.
    fn bits_30_31(self) -> u32 {
        (if self.page == 11 { 2 } else { 0 }) | u32::from(self.segment == 20)
    }
}

const OF_4K_64K: Sizes = Sizes { page: 12, segment: 16 };
const OF_2K_64K: Sizes = Sizes { page: 11, segment: 16 };
const OF_4K_1M: Sizes = Sizes { page: 12, segment: 20 };
const OF_2K_1M: Sizes = Sizes { page: 11, segment: 20 };

/// Virtual tables (their virtual addresses) and real ones, and the address that is loaded.
#[derive(Clone, Copy)]
struct Tables {
    virtual_sizes: Sizes,
    real_sizes: Sizes,
    virtual_tables: [u32; 2],
    address: u32,
}

/// 4K and 64K, virtual and real. The virtual segment entry (index 34) is at 123110, the page entry (index 5) at 056212.
const USUAL: Tables = Tables {
    virtual_sizes: OF_4K_64K,
    real_sizes: OF_4K_64K,
    virtual_tables: [0x12_3040, 0x05_6208],
    address: 0x34_5E78,
};

/// Real format, and segment and page in it, as the leftmost part of an address: the least and the greatest index.
const REAL_CASES: [(&str, Sizes, u32); 12] = [
    ("SEGPAGE at 4SX, 64K, SX 00", OF_4K_64K, 0x00_3000),
    ("SEGPAGE at 4SX, 64K, SX FF", OF_4K_64K, 0xFF_3000),
    ("SEGPAGE at 4SX, 1M, SX 0", OF_4K_1M, 0x02_3000),
    ("SEGPAGE at 4SX, 1M, SX F", OF_4K_1M, 0xF2_3000),
    ("PAGCORE at 2PX, 4K, 64K, PX 0", OF_4K_64K, 0x92_0000),
    ("PAGCORE at 2PX, 4K, 64K, PX F", OF_4K_64K, 0x92_F000),
    ("PAGCORE at 2PX, 2K, 64K, PX 00", OF_2K_64K, 0x92_0000),
    ("PAGCORE at 2PX, 2K, 64K, PX 1F", OF_2K_64K, 0x92_F800),
    ("PAGCORE at 2PX, 4K, 1M, PX 00", OF_4K_1M, 0x90_0000),
    ("PAGCORE at 2PX, 4K, 1M, PX FF", OF_4K_1M, 0x9F_F000),
    ("PAGCORE at 2PX, 2K, 1M, PX 000", OF_2K_1M, 0x90_0000),
    ("PAGCORE at 2PX, 2K, 1M, PX 1FF", OF_2K_1M, 0x9F_F800),
];

/// Virtual format, and the address that is loaded.
const VIRTUAL_CASES: [(&str, Sizes, u32); 12] = [
    ("virtual segment entry, 64K, index 00", OF_4K_64K, 0x00_5E78),
    ("virtual segment entry, 64K, index FF", OF_4K_64K, 0xFF_5E78),
    ("virtual segment entry, 1M, index 0", OF_4K_1M, 0x04_5E78),
    ("virtual segment entry, 1M, index F", OF_4K_1M, 0xF4_5E78),
    ("virtual page entry, 4K, 64K, index 0", OF_4K_64K, 0x34_0E78),
    ("virtual page entry, 4K, 64K, index F", OF_4K_64K, 0x34_FE78),
    ("virtual page entry, 2K, 64K, index 00", OF_2K_64K, 0x34_0678),
    ("virtual page entry, 2K, 64K, index 1F", OF_2K_64K, 0x34_FE78),
    ("virtual page entry, 4K, 1M, index 00", OF_4K_1M, 0x30_0E78),
    ("virtual page entry, 4K, 1M, index FF", OF_4K_1M, 0x3F_FE78),
    ("virtual page entry, 2K, 1M, index 000", OF_2K_1M, 0x30_0678),
    ("virtual page entry, 2K, 1M, index 1FF", OF_2K_1M, 0x3F_FE78),
];

pub fn cases() -> Vec<FixedList> {
    let mut cases = vec![USUAL.case("MICRSEG at 0, MICCREG at 4, EXTCR0 at 0, EXTCR1 at 4")];
    for (walk, words) in [(0, "first walk"), (1, "second walk")] {
        for (case, real_sizes, start) in REAL_CASES {
            let mut tables = Tables { real_sizes, ..USUAL };
            tables.virtual_tables[walk] = start | USUAL.virtual_tables[walk] & 0x7FF;
            // The other walk by a segment that is far from it, also of 1M.
            tables.virtual_tables[1 - walk] = [0x62_3040, 0x55_6208][1 - walk];
            cases.push(tables.case(&format!("{words}, {case}")));
        }
    }
    for (case, virtual_sizes, address) in VIRTUAL_CASES {
        cases.push(Tables { virtual_sizes, address, ..USUAL }.case(case));
    }
    let real = translated(USUAL.put());
    cases.push(FixedList::one("figure 9: DAT on, fields real, instruction logical", &real, &[]));
    cases
}

impl Tables {
    fn case(self, case: &str) -> FixedList {
        FixedList::one(&format!("figure 9: {case}"), &self.put(), &self.fields())
    }

    /// Virtual addresses of the virtual segment entry and the virtual page entry.
    fn virtual_entries(self) -> [u32; 2] {
        let [segment_table, page_table] = self.virtual_tables;
        [
            segment_table + 4 * self.virtual_sizes.segment_index(self.address),
            page_table + 2 * self.virtual_sizes.page_index(self.address),
        ]
    }

    /// Real entries of a walk, and the real address to which it leads.
    fn walk(self, walk: usize) -> [u32; 3] {
        let address = self.virtual_entries()[walk];
        [
            REAL_SEGMENT_TABLE + 4 * self.real_sizes.segment_index(address),
            PAGE_TABLES[walk] + 2 * self.real_sizes.page_index(address),
            FRAMES[walk] + address % (1 << self.real_sizes.page),
        ]
    }

    fn fields(self) -> [Field; 10] {
        let [first, second] = [0, 1].map(|walk| self.walk(walk));
        let field = |name, address, length| Field { name, address, length };
        [
            MICRSEG,
            MICCREG,
            extcr(0),
            extcr(1),
            field("first SEGPAGE", first[0], 4),
            field("first PAGCORE", first[1], 2),
            field("virtual segment entry", first[2], 4),
            field("second SEGPAGE", second[0], 4),
            field("second PAGCORE", second[1], 2),
            field("virtual page entry", second[2], 2),
        ]
    }

    /// What leads elsewhere first, so that the fields stay.
    fn put(self) -> Setup {
        let mut setup = Setup::lra().size(0x8000).operand(self.address);
        setup = around_micblok(setup, 0x0F00_0000 | self.real_sizes.bits_30_31() | DECOY, &[]);
        setup = self.put_decoys(setup);
        let [segment_table, page_table] = self.virtual_tables;
        let page_halfword = if self.virtual_sizes.page == 12 { 0xABC0 } else { 0x5678 };
        setup = setup
            .word(MICBLOK, 0x0F00_0000 | REAL_SEGMENT_TABLE | self.real_sizes.bits_30_31())
            .word(MICBLOK + 4, ECBLOK)
            .word(ECBLOK, self.virtual_sizes.register_0())
            .word(ECBLOK + 4, 0x0F00_0000 | segment_table);
        for (walk, page_entry) in [(0, 0x0020), (1, 0x0030)] {
            let [segment, page, _] = self.walk(walk);
            setup = setup.word(segment, 0xF000_0000 | PAGE_TABLES[walk]).halfword(page, page_entry);
        }
        let [segment_entry, page_entry] = [0, 1].map(|walk| self.walk(walk)[2]);
        setup.word(segment_entry, 0xF000_0000 | page_table).halfword(page_entry, page_halfword)
    }

    /// Beside the virtual control registers, and where wrong ones lead: to entries 100 bytes (hex) further on.
    fn put_decoys(self, mut setup: Setup) -> Setup {
        let register_0 = self.virtual_sizes.register_0();
        let register_1 = 0x0F00_0000 | (self.virtual_tables[0] + 0x100);
        for address in [ECBLOK - 8, ECBLOK - 4] {
            setup = setup.word(address, register_0 ^ 0x00C0_0000);
        }
        for address in [ECBLOK + 8, ECBLOK + 12] {
            setup = setup.word(address, register_1);
        }
        setup = setup.word(DECOY, register_0).word(DECOY + 4, register_1);
        (0..2).fold(setup, |setup, walk| self.put_decoys_of_walk(walk, setup))
    }

    /// Beside each entry, and where wrong ones lead.
    fn put_decoys_of_walk(self, walk: usize, mut setup: Setup) -> Setup {
        let address = self.virtual_entries()[walk];
        let [segment, page, entry] = self.walk(walk);
        let (page_table, page_entry) = (0xF000_0000 | DECOY_PAGE_TABLE, DECOY_PAGE_ENTRY);
        for shift in [4, 8] {
            setup = setup.word(segment - shift, page_table).word(segment + shift, page_table);
        }
        for shift in [2, 4, 8] {
            setup = setup.halfword(page - shift, page_entry).halfword(page + shift, page_entry);
        }
        setup = setup
            .word(DECOY + 4 * self.real_sizes.segment_index(address), page_table)
            .halfword(DECOY_PAGE_TABLE + 2 * self.real_sizes.page_index(address), page_entry);
        let in_decoy_frame = DECOY_FRAME + address % (1 << self.real_sizes.page);
        for place in [entry, entry + 0x100, in_decoy_frame] {
            setup = if walk == 0 {
                around_word(setup, place, 0xF000_0000 | (self.virtual_tables[1] + 0x100))
            } else {
                around_halfword(setup, place)
            };
        }
        setup
    }
}

/// A word and two on either side of it.
fn around_word(setup: Setup, address: u32, word: u32) -> Setup {
    (0..5).fold(setup, |setup, place| setup.word(address - 8 + 4 * place, word))
}

/// A halfword and four on either side of it.
fn around_halfword(setup: Setup, address: u32) -> Setup {
    (0..9).fold(setup, |setup, place| setup.halfword(address - 8 + 2 * place, WRONG_ENTRY))
}
