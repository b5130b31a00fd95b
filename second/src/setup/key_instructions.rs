//! SSK, ISK and RRB of one page: 3 of segment 2 (64K segments), and its real tables.

use super::{Setup, MICBLOK, VIRTUAL_PSW};

/// Real segment table, page table and swap table; the page table has its swap address at C0C.
pub const REAL_SEGMENT_TABLE: u32 = 0x800;
pub const REAL_PAGE_TABLE: u32 = 0xC10;
pub const SWAP_TABLE: u32 = 0xD00;

/// Entry of segment 2, swap-table address, swap word of page 3 and its entry.
pub const SEGMENT_ENTRY: u32 = REAL_SEGMENT_TABLE + 4 * 2;
pub const SWAP_ADDRESS: u32 = REAL_PAGE_TABLE - 4;
pub const SWAP_WORD: u32 = SWAP_TABLE + 8 * 3;
pub const PAGE_ENTRY: u32 = REAL_PAGE_TABLE + 2 * 3;

impl Setup {
    /// The tables, with the page in this frame, and registers 3 and 4 for an instruction that names them.
    fn with_real_tables(first_halfword: u16, page_entry: u16) -> Setup {
        Setup::new(first_halfword, 0x4000)
            .register(3, 0xABCD_EF3F)
            .register(4, 0x5A02_3000)
            .word(MICBLOK, REAL_SEGMENT_TABLE)
            .word(SEGMENT_ENTRY, 0xF000_0000 | REAL_PAGE_TABLE)
            .word(SWAP_ADDRESS, SWAP_TABLE)
            .halfword(PAGE_ENTRY, page_entry)
    }

    /// SSK 3,4 of address 023000 (64K segments: segment 2, page 3) in frame 001000; R1 low byte 3F.
    pub fn ssk() -> Setup {
        Setup::with_real_tables(0x0834, 0x0010)
    }

    /// SSK 3,4 of address 523000 (1M segments: segment 5, page 23 hex) in frame 001000.
    pub fn ssk_1m() -> Setup {
        let mut setup = Setup::ssk();
        setup.guest.general_registers[4] = 0x5A52_3000;
        setup.image.put_word(MICBLOK, REAL_SEGMENT_TABLE | 1);
        setup.image.put_word(REAL_SEGMENT_TABLE + 4 * 5, 0xF000_0000 | REAL_PAGE_TABLE);
        setup.image.put_halfword(REAL_PAGE_TABLE + 2 * 0x23, 0x0010);
        setup
    }

    /// ISK 3,4 of the same page as SSK: swap word 5AC3AD53, key 2 is 53. Byte 0 of the virtual PSW is 00, byte 1 the
    /// one given.
    pub fn isk(virtual_psw_byte_1: u8) -> Setup {
        Setup::with_real_tables(0x0934, 0x0010)
            .halfword(VIRTUAL_PSW, u16::from(virtual_psw_byte_1))
            .word(SWAP_WORD, 0x5AC3_AD53)
            .key(2, 0x53)
    }

    /// RRB of address 023000 in frame 002000: swap word 50C3FDFF, key 4 is FB. PSW bits 16-23 are 1A, so the condition
    /// code is 1.
    pub fn rrb() -> Setup {
        let mut setup = Setup::with_real_tables(0xB213, 0x0020).operand(0x02_3000);
        setup.guest.psw_0_31 |= 0x0000_1A00;
        setup.word(SWAP_WORD, 0x50C3_FDFF).key(4, 0xFB)
    }
}
