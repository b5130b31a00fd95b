//! The translation walk of document 01, section "Addresses and translation".

use crate::address::add;
use crate::bits::{halfword_bit, halfword_bits, word_bit, word_bits};
use crate::ending::Exception;
use crate::guest::Guest;
use crate::machine::Machine;
use crate::references::{ReferenceKind, References};

/// Page size and segment size.
#[derive(Clone, Copy, Debug, PartialEq, Eq)]
pub struct Format {
    pub pages_of_4k: bool,
    pub segments_of_1m: bool,
}

impl Format {
    pub const ALL: [Format; 4] = [
        Format { pages_of_4k: false, segments_of_1m: false },
        Format { pages_of_4k: false, segments_of_1m: true },
        Format { pages_of_4k: true, segments_of_1m: false },
        Format { pages_of_4k: true, segments_of_1m: true },
    ];

    /// Walk step 1: control register 0 bits 8-12.
    #[inline]
    pub fn of_control_register_0(control_register_0: u32) -> Option<Format> {
        match word_bits(control_register_0, 8, 12) {
            0b01000 => Some(Format { pages_of_4k: false, segments_of_1m: false }),
            0b01010 => Some(Format { pages_of_4k: false, segments_of_1m: true }),
            0b10000 => Some(Format { pages_of_4k: true, segments_of_1m: false }),
            0b10010 => Some(Format { pages_of_4k: true, segments_of_1m: true }),
            _ => None,
        }
    }

    /// Address bits 8-15, or 8-11 for 1M.
    #[inline]
    pub fn segment_index(self, address: u32) -> u32 {
        word_bits(address, 8, if self.segments_of_1m { 11 } else { 15 })
    }

    /// The segment-table length (bits 0-7 of control register 1, of virtual control register 1 or of MICRSEG) is less
    /// than address bits 8-11. For 1M segments there is no such test.
    #[inline]
    pub fn segment_table_too_short(self, length_and_origin: u32, address: u32) -> bool {
        !self.segments_of_1m && word_bits(length_and_origin, 0, 7) < word_bits(address, 8, 11)
    }

    /// The page index starts at address bit 16 (64K) or 12 (1M) and ends at bit 19 (4K) or 20 (2K).
    #[inline]
    pub fn page_index(self, address: u32) -> u32 {
        word_bits(address, self.page_index_start(), if self.pages_of_4k { 19 } else { 20 })
    }

    /// The four leftmost bits of the page index.
    #[inline]
    pub fn page_index_leftmost_four(self, address: u32) -> u32 {
        word_bits(address, self.page_index_start(), self.page_index_start() + 3)
    }

    #[inline]
    fn page_index_start(self) -> u32 {
        if self.segments_of_1m {
            12
        } else {
            16
        }
    }

    /// The four leftmost bits of the page index exceed bits 0-3 of the segment entry.
    #[inline]
    pub fn page_table_too_short(self, segment_entry: u32, address: u32) -> bool {
        self.page_index_leftmost_four(address) > word_bits(segment_entry, 0, 3)
    }

    /// Invalid bit of a page entry: 12 for 4K, 13 for 2K.
    #[inline]
    pub fn page_invalid(self, page_entry: u16) -> bool {
        halfword_bit(page_entry, if self.pages_of_4k { 12 } else { 13 })
    }

    /// For 4K bits 13-14, for 2K bit 14, not zero.
    #[inline]
    pub fn page_format_wrong(self, page_entry: u16) -> bool {
        halfword_bits(page_entry, if self.pages_of_4k { 13 } else { 14 }, 14) != 0
    }

    /// Frame (bits 0-11 or 0-12) and the remaining address bits.
    #[inline]
    pub fn real_address(self, page_entry: u16, address: u32) -> u32 {
        if self.pages_of_4k {
            (halfword_bits(page_entry, 0, 11) << 12) | word_bits(address, 20, 31)
        } else {
            (halfword_bits(page_entry, 0, 12) << 11) | word_bits(address, 21, 31)
        }
    }
}

/// Segment-table origin: bits 8-25, six zeros (control register 1, MICRSEG).
#[inline]
pub fn segment_table_origin(word: u32) -> u32 {
    word_bits(word, 8, 25) << 6
}

/// Invalid bit of a segment entry.
#[inline]
pub fn segment_invalid(segment_entry: u32) -> bool {
    word_bit(segment_entry, 31)
}

/// Bits 4-7 not zero.
#[inline]
pub fn segment_format_wrong(segment_entry: u32) -> bool {
    word_bits(segment_entry, 4, 7) != 0
}

/// Page-table origin: segment entry bits 8-28, three zeros.
#[inline]
pub fn page_table_origin(segment_entry: u32) -> u32 {
    word_bits(segment_entry, 8, 28) << 3
}

/// The real address of a logical address; the first exception found ends the walk.
#[inline]
pub fn translate(
    machine: &mut Machine<impl References>,
    guest: &Guest,
    logical_address: u32,
) -> Result<u32, Exception> {
    // With DAT off a logical address is real.
    if !guest.dat_on() {
        return Ok(logical_address);
    }
    // Step 1.
    machine.walk_step = 1;
    let Some(format) = Format::of_control_register_0(guest.control_register_0) else {
        return Err(Exception::TranslationSpecification);
    };
    // Step 2: only for 64K segments.
    machine.walk_step = 2;
    if format.segment_table_too_short(guest.control_register_1, logical_address) {
        return Err(Exception::SegmentTranslation { logical_address });
    }
    let segment_entry = fetch_segment_entry(machine, guest, format, logical_address)?;
    // Step 4.
    machine.walk_step = 4;
    if format.page_table_too_short(segment_entry, logical_address) {
        return Err(Exception::PageTranslation { logical_address });
    }
    let page_entry = fetch_page_entry(machine, segment_entry, format, logical_address)?;
    // Step 6.
    Ok(format.real_address(page_entry, logical_address))
}

/// Walk step 3.
#[inline]
fn fetch_segment_entry(
    machine: &mut Machine<impl References>,
    guest: &Guest,
    format: Format,
    logical_address: u32,
) -> Result<u32, Exception> {
    machine.walk_step = 3;
    let origin = segment_table_origin(guest.control_register_1);
    let entry_address = add(origin, 4 * format.segment_index(logical_address));
    let Some(bytes) = machine.fetch(ReferenceKind::SegmentEntry, entry_address) else {
        return Err(Exception::Addressing);
    };
    let entry = u32::from_be_bytes(bytes);
    if segment_invalid(entry) {
        return Err(Exception::SegmentTranslation { logical_address });
    }
    if segment_format_wrong(entry) {
        return Err(Exception::TranslationSpecification);
    }
    Ok(entry)
}

/// Walk step 5.
#[inline]
fn fetch_page_entry(
    machine: &mut Machine<impl References>,
    segment_entry: u32,
    format: Format,
    logical_address: u32,
) -> Result<u16, Exception> {
    machine.walk_step = 5;
    let entry_address = add(page_table_origin(segment_entry), 2 * format.page_index(logical_address));
    let Some(bytes) = machine.fetch(ReferenceKind::PageEntry, entry_address) else {
        return Err(Exception::Addressing);
    };
    let entry = u16::from_be_bytes(bytes);
    if format.page_invalid(entry) {
        return Err(Exception::PageTranslation { logical_address });
    }
    if format.page_format_wrong(entry) {
        return Err(Exception::TranslationSpecification);
    }
    Ok(entry)
}
