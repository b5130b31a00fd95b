//! LOAD REAL ADDRESS (document 02, R-9), by the steps of document 002.
//!
//! Real tables are those of the control program, by MICRSEG; their entries are fields of its own and have a place in
//! ending 3. Virtual tables are the guest's, by virtual control registers 0 and 1; their addresses are virtual, and the
//! real tables say where an entry is. A virtual entry that is not in storage is refused.

use crate::access::fetch_second_halfword;
use crate::address::add;
use crate::bits::{halfword_bits, word_bit, word_bits};
use crate::ending::Ending;
use crate::guest::Guest;
use crate::machine::Machine;
use crate::real_page::{check_segment_entry, Tried};
use crate::references::{ReferenceKind, References};
use crate::store_control::bits_0_3_are_10x0;
use crate::translation::{
    page_table_origin, segment_format_wrong, segment_invalid, segment_table_origin, Format,
};

/// Gives the record with the result register and the condition code.
pub fn load_real_address(
    machine: &mut Machine<impl References>,
    guest: &Guest,
    first_halfword: u16,
) -> Result<Guest, Ending> {
    let r1 = halfword_bits(first_halfword, 8, 11);
    let x2 = halfword_bits(first_halfword, 12, 15);
    // 1. Control register 6 bits 0-3 not 10X0: refuse.
    machine.step = 1;
    if !bits_0_3_are_10x0(guest.control_register_6) {
        return Err(Ending::REFUSE);
    }
    let mut tried = Tried::default();
    // 2. MICRSEG and MICCREG, a doubleword: two words, left first.
    machine.step = 2;
    let micrseg = tried.word(machine, guest.micblok_address())?;
    let miccreg = tried.word(machine, add(guest.micblok_address(), 4))?;
    // 3. EXTCR0 and EXTCR1, likewise; the ECBLOK's address is in bits 8-31 of MICCREG.
    machine.step = 3;
    let ecblok = word_bits(miccreg, 8, 31);
    let control_register_0 = tried.virtual_register(machine, ecblok, 0)?;
    let control_register_1 = tried.virtual_register(machine, ecblok, 1)?;
    // 4. Virtual control register 0 bits 8-12 of invalid format: refuse.
    machine.step = 4;
    let format = Format::of_control_register_0(control_register_0).ok_or(Ending::REFUSE)?;
    // 5. Second halfword; an access exception is reported as itself.
    machine.step = 5;
    let second_halfword = fetch_second_halfword(machine, guest)?;
    // 6 to 24.
    let address = guest.indexed_address(x2, second_halfword);
    let tables = Tables { micrseg, format, control_register_1 };
    let loaded = tables.load(machine, &mut tried, address)?;
    Ok(guest.with_general_register(r1, loaded.word).with_condition_code(loaded.condition_code))
}

/// What a completed LOAD REAL ADDRESS sets. The word is a 24-bit address, so that bits 0-7 are zeros.
struct Loaded {
    condition_code: u32,
    word: u32,
}

/// Completion with this condition code.
fn completed(condition_code: u32, word: u32) -> Result<Loaded, Ending> {
    Ok(Loaded { condition_code, word })
}

/// Where the tables are, and the format of the virtual ones.
struct Tables {
    micrseg: u32,
    format: Format,
    /// Virtual control register 1.
    control_register_1: u32,
}

impl Tables {
    /// Steps 6 to 13: the virtual segment entry.
    #[inline]
    fn load(
        &self,
        machine: &mut Machine<impl References>,
        tried: &mut Tried,
        address: u32,
    ) -> Result<Loaded, Ending> {
        // 6. For a virtual segment of 64K, length (bits 0-7) below address bits 8-11: code 3, with the virtual address
        // of the segment entry.
        machine.step = 6;
        let origin = segment_table_origin(self.control_register_1);
        let entry_address = add(origin, 4 * self.format.segment_index(address));
        if self.format.segment_table_too_short(self.control_register_1, address) {
            return completed(3, entry_address);
        }
        // 7 to 11: where that entry is.
        let real_address = walk(machine, tried, self.micrseg, entry_address, 7)?;
        // 12. The virtual segment entry.
        machine.step = 12;
        let bytes = machine.fetch(ReferenceKind::SegmentEntry, real_address).ok_or(Ending::REFUSE)?;
        let segment_entry = u32::from_be_bytes(bytes);
        // 13. Invalid: code 1, with its virtual address.
        machine.step = 13;
        if segment_invalid(segment_entry) {
            return completed(1, entry_address);
        }
        // 14. Of invalid format: refuse.
        machine.step = 14;
        if segment_format_wrong(segment_entry) {
            return Err(Ending::REFUSE);
        }
        self.load_from_page_table(machine, tried, segment_entry, address)
    }

    /// Steps 15 to 24: the virtual page entry, and the address.
    #[inline]
    fn load_from_page_table(
        &self,
        machine: &mut Machine<impl References>,
        tried: &mut Tried,
        segment_entry: u32,
        address: u32,
    ) -> Result<Loaded, Ending> {
        // 15. The page table too short: code 3, with the virtual address of the page entry.
        machine.step = 15;
        let entry_address = add(page_table_origin(segment_entry), 2 * self.format.page_index(address));
        if self.format.page_table_too_short(segment_entry, address) {
            return completed(3, entry_address);
        }
        // 16 to 20: where that entry is.
        let real_address = walk(machine, tried, self.micrseg, entry_address, 16)?;
        // 21. The virtual page entry.
        machine.step = 21;
        let bytes = machine.fetch(ReferenceKind::PageEntry, real_address).ok_or(Ending::REFUSE)?;
        let page_entry = u16::from_be_bytes(bytes);
        // 22. Invalid: code 2, with its virtual address.
        machine.step = 22;
        if self.format.page_invalid(page_entry) {
            return completed(2, entry_address);
        }
        // 23. Of invalid format: refuse.
        machine.step = 23;
        if self.format.page_format_wrong(page_entry) {
            return Err(Ending::REFUSE);
        }
        // 24. Page frame and byte index: code 0. Whether the address is in storage is not asked.
        machine.step = 24;
        completed(0, self.format.real_address(page_entry, address))
    }
}

/// The real tables give the real address of the virtual address of an entry: five steps, the first of which has the
/// number `step`. Table entries are on their boundaries, so the whole entry is in one page.
#[inline]
fn walk(
    machine: &mut Machine<impl References>,
    tried: &mut Tried,
    micrseg: u32,
    address: u32,
    step: u8,
) -> Result<u32, Ending> {
    // 2K pages if MICRSEG bit 30 is one, 1M segments if bit 31 is. For 64K, length below address bits 8-11: refuse.
    machine.step = step;
    let format = Format { pages_of_4k: !word_bit(micrseg, 30), segments_of_1m: word_bit(micrseg, 31) };
    if format.segment_table_too_short(micrseg, address) {
        return Err(Ending::REFUSE);
    }
    // SEGPAGE, the real segment entry.
    machine.step = step + 1;
    let segment_table = segment_table_origin(micrseg);
    let segment_entry = tried.word(machine, add(segment_table, 4 * format.segment_index(address)))?;
    machine.step = step + 2;
    check_segment_entry(format, segment_entry, address)?;
    // PAGCORE, the real page entry.
    machine.step = step + 3;
    let page_table = page_table_origin(segment_entry);
    let page_entry = tried.halfword(machine, add(page_table, 2 * format.page_index(address)))?;
    // Invalid or of invalid format: refuse.
    machine.step = step + 4;
    if format.page_invalid(page_entry) || format.page_format_wrong(page_entry) {
        return Err(Ending::REFUSE);
    }
    Ok(format.real_address(page_entry, address))
}
