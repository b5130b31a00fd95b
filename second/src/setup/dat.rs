//! DAT of a set-up: control registers, segment and page entries.

use super::Setup;

/// Segment table and first page table for DAT; each is 400 bytes (hex) long.
pub const SEGMENT_TABLE: u32 = 0x3000;
pub const PAGE_TABLES: u32 = 0x3400;

/// DAT (bit 5).
pub const PSW_DAT: u32 = 0x0400_0000;

impl Setup {
    /// DAT on with control register 0 bits 8-12 as given; full length of the segment table.
    pub fn dat(mut self, format_bits: u32) -> Setup {
        self.guest.psw_0_31 |= PSW_DAT;
        self.guest.control_register_0 = format_bits << 19;
        self.guest.control_register_1 = 0xFF00_0000 | SEGMENT_TABLE;
        self
    }

    /// Segment and page entries so that this logical page is in the frame of the real address.
    pub fn map(mut self, logical: u32, real: u32) -> Setup {
        let (segment_entry, page_entry) = self.entry_addresses(logical);
        let page_table = PAGE_TABLES + 0x400 * self.table_of(self.segment(logical));
        self.image.put_word(segment_entry, 0xF000_0000 | page_table);
        let frame = if self.pages_of_4k() { (real >> 12) << 4 } else { (real >> 11) << 3 };
        self.image.put_halfword(page_entry, frame as u16);
        self
    }

    /// Where `map` puts the segment entry and the page entry of a logical address.
    pub fn entry_addresses(&mut self, logical: u32) -> (u32, u32) {
        let segment = self.segment(logical);
        let page_table = PAGE_TABLES + 0x400 * self.table_of(segment);
        let in_segment = if self.segments_of_1m() { logical & 0xF_FFFF } else { logical & 0xFFFF };
        let page = if self.pages_of_4k() { in_segment >> 12 } else { in_segment >> 11 };
        (SEGMENT_TABLE + 4 * segment, page_table + 2 * page)
    }

    fn segment(&self, logical: u32) -> u32 {
        if self.segments_of_1m() {
            logical >> 20
        } else {
            logical >> 16
        }
    }

    fn table_of(&mut self, segment: u32) -> u32 {
        if let Some(position) = self.segments.iter().position(|&one| one == segment) {
            return position as u32;
        }
        self.segments.push(segment);
        self.segments.len() as u32 - 1
    }

    fn pages_of_4k(&self) -> bool {
        self.guest.control_register_0 >> 19 & 0b10000 != 0
    }

    fn segments_of_1m(&self) -> bool {
        self.guest.control_register_0 >> 19 & 0b00010 != 0
    }
}
