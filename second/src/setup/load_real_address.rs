//! LRA of one virtual address, with the entries that it needs in all four virtual and all four real formats. Which of
//! them are used is for virtual control register 0 and MICRSEG to say; wrong ones lead elsewhere.

use super::{Setup, ECBLOK, MICBLOK, REAL_PAGE_TABLE, REAL_SEGMENT_TABLE};

/// The second-operand address. 64K: segment 34, page 5 (4K) or 0B (2K). 1M: segment 3, page 45 (4K) or 8B (2K). Byte
/// index E78 (4K) or 678 (2K).
pub const LRA_ADDRESS: u32 = 0x34_5E78;

/// Virtual tables: their virtual addresses, and where the real tables have them in storage.
pub const VIRTUAL_SEGMENT_TABLE: u32 = 0x12_3840;
pub const VIRTUAL_PAGE_TABLE: u32 = 0x05_6D08;
pub const VIRTUAL_SEGMENT_TABLE_REAL: u32 = 0x2840;
pub const VIRTUAL_PAGE_TABLE_REAL: u32 = 0x1D08;

/// The real page table of the second walk; that of the first is `REAL_PAGE_TABLE`.
pub const SECOND_PAGE_TABLE: u32 = 0xD00;

/// Entries of the real tables (64K, 4K), for the virtual segment entry and for the virtual page entry.
pub const FIRST_SEGMENT_ENTRY: u32 = REAL_SEGMENT_TABLE + 4 * 0x12;
pub const FIRST_PAGE_ENTRY: u32 = REAL_PAGE_TABLE + 2 * 3;
pub const SECOND_SEGMENT_ENTRY: u32 = REAL_SEGMENT_TABLE + 4 * 0x05;
pub const SECOND_PAGE_ENTRY: u32 = SECOND_PAGE_TABLE + 2 * 6;

/// The same page entries for real pages of 2K.
pub const FIRST_PAGE_ENTRY_2K: u32 = REAL_PAGE_TABLE + 2 * 7;
pub const SECOND_PAGE_ENTRY_2K: u32 = SECOND_PAGE_TABLE + 2 * 0x0D;

/// Entries of the virtual tables, as places in storage, by segment size and by format.
pub const VIRTUAL_SEGMENT_ENTRY: u32 = VIRTUAL_SEGMENT_TABLE_REAL + 4 * 0x34;
pub const VIRTUAL_SEGMENT_ENTRY_1M: u32 = VIRTUAL_SEGMENT_TABLE_REAL + 4 * 3;
pub const VIRTUAL_PAGE_ENTRY: u32 = VIRTUAL_PAGE_TABLE_REAL + 2 * 5;
pub const VIRTUAL_PAGE_ENTRY_2K: u32 = VIRTUAL_PAGE_TABLE_REAL + 2 * 0x0B;
pub const VIRTUAL_PAGE_ENTRY_1M: u32 = VIRTUAL_PAGE_TABLE_REAL + 2 * 0x45;
pub const VIRTUAL_PAGE_ENTRY_2K_1M: u32 = VIRTUAL_PAGE_TABLE_REAL + 2 * 0x8B;

/// Virtual control register 0 for a virtual format: its bits 8-12.
pub const VIRTUAL_2K_64K: u32 = 0x0040_0000;
pub const VIRTUAL_2K_1M: u32 = 0x0050_0000;
pub const VIRTUAL_4K_64K: u32 = 0x0080_0000;
pub const VIRTUAL_4K_1M: u32 = 0x0090_0000;

/// MICRSEG: length 01 and the real segment table. Bit 30 chooses 2K pages, bit 31 chooses 1M segments.
pub const MICRSEG: u32 = 0x0100_0000 | REAL_SEGMENT_TABLE;
pub const MICRSEG_2K: u32 = 2;
pub const MICRSEG_1M: u32 = 1;

impl Setup {
    /// LRA 3,010(0,2) of address 345E78 in 4K pages and 64K segments, virtual and real. The condition code is 1 (PSW
    /// bits 16-23 are 1A). Every table is just long enough.
    pub fn lra() -> Setup {
        let mut setup = Setup::new(0xB130, 0x4000).register(2, 0x5A34_5E68).register(3, 0xABCD_EF3F);
        setup.guest.psw_0_31 |= 0x0000_1A00;
        let setup = setup.word(MICBLOK, MICRSEG).word(ECBLOK, VIRTUAL_4K_64K);
        setup
            .word(ECBLOK + 4, 0x0300_0000 | VIRTUAL_SEGMENT_TABLE)
            .with_virtual_tables()
            .with_both_real_pages()
    }

    /// LRA with virtual control register 0 and MICRSEG as given.
    pub fn lra_of(virtual_control_register_0: u32, micrseg: u32) -> Setup {
        Setup::lra().word(ECBLOK, virtual_control_register_0).word(MICBLOK, micrseg)
    }

    /// A segment entry for each segment size, a page entry for each format.
    fn with_virtual_tables(self) -> Setup {
        self.word(VIRTUAL_SEGMENT_ENTRY, 0x5000_0000 | VIRTUAL_PAGE_TABLE)
            .word(VIRTUAL_SEGMENT_ENTRY_1M, 0x4000_0000 | VIRTUAL_PAGE_TABLE)
            .halfword(VIRTUAL_PAGE_ENTRY, 0xABC0)
            .halfword(VIRTUAL_PAGE_ENTRY_2K, 0x5678)
            .halfword(VIRTUAL_PAGE_ENTRY_1M, 0x1230)
            .halfword(VIRTUAL_PAGE_ENTRY_2K_1M, 0x9AB0)
    }

    /// The page of the virtual segment table (123000, 2K: 123800) and that of the virtual page table (056000, 2K:
    /// 056800): 64K segments 12 and 05, 1M segments 1 and 0.
    fn with_both_real_pages(self) -> Setup {
        self.word(FIRST_SEGMENT_ENTRY, 0x3000_0000 | REAL_PAGE_TABLE)
            .word(SECOND_SEGMENT_ENTRY, 0x6000_0000 | SECOND_PAGE_TABLE)
            .word(REAL_SEGMENT_TABLE + 4, 0x2000_0000 | REAL_PAGE_TABLE)
            .word(REAL_SEGMENT_TABLE, 0x5000_0000 | SECOND_PAGE_TABLE)
            // 4K pages: frames 002 and 001, by 64K and by 1M segments.
            .halfword(FIRST_PAGE_ENTRY, 0x0020)
            .halfword(SECOND_PAGE_ENTRY, 0x0010)
            .halfword(REAL_PAGE_TABLE + 2 * 0x23, 0x0020)
            .halfword(SECOND_PAGE_TABLE + 2 * 0x56, 0x0010)
            // 2K pages: frames at 2800 and 1800.
            .halfword(FIRST_PAGE_ENTRY_2K, 0x0028)
            .halfword(SECOND_PAGE_ENTRY_2K, 0x0018)
            .halfword(REAL_PAGE_TABLE + 2 * 0x47, 0x0028)
            .halfword(SECOND_PAGE_TABLE + 2 * 0xAD, 0x0018)
    }
}
