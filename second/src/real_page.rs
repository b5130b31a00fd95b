//! What INSERT STORAGE KEY and RESET REFERENCE BIT share: MICRSEG, then the steps of document 002 from the segment
//! index to the page entry (steps 4 to 10 of the first, 5 to 11 of the second), and the number that ending 3 carries,
//! which LOAD REAL ADDRESS has too.

use crate::address::{add, subtract};
use crate::bits::{word_bit, word_bits};
use crate::ending::{Ending, NotThere};
use crate::guest::Guest;
use crate::machine::Machine;
use crate::references::{ReferenceKind, References};
use crate::translation::{
    page_table_origin, segment_format_wrong, segment_invalid, segment_table_origin, Format,
};

/// Control fields, virtual registers and the page's key block, counted from 1 as the call tries them (document 02,
/// what is not in storage gives ending 3 with its place. What a call does not try has no place.
#[derive(Default)]
pub struct Tried {
    place: u8,
}

impl Tried {
    /// The next control field or virtual register: N bytes at a real address, one entry.
    #[inline]
    fn field<const N: usize>(
        &mut self,
        machine: &mut Machine<impl References>,
        kind: ReferenceKind,
        address: u32,
    ) -> Result<[u8; N], Ending> {
        self.place += 1;
        machine.fetch(kind, address).ok_or(Ending::NotInStorage(NotThere::Place(self.place)))
    }

    #[inline]
    pub fn word(&mut self, machine: &mut Machine<impl References>, address: u32) -> Result<u32, Ending> {
        self.field(machine, ReferenceKind::ControlField, address).map(u32::from_be_bytes)
    }

    /// Virtual control register r is the word at ECBLOK + 4r.
    #[inline]
    pub fn virtual_register(
        &mut self,
        machine: &mut Machine<impl References>,
        ecblok: u32,
        number: u32,
    ) -> Result<u32, Ending> {
        let address = add(ecblok, 4 * number);
        self.field(machine, ReferenceKind::VirtualRegister, address).map(u32::from_be_bytes)
    }

    #[inline]
    pub fn halfword(&mut self, machine: &mut Machine<impl References>, address: u32) -> Result<u16, Ending> {
        self.field(machine, ReferenceKind::ControlField, address).map(u16::from_be_bytes)
    }

    /// The key of the page's block, consulted: one entry.
    #[inline]
    pub fn key(&mut self, machine: &mut Machine<impl References>, real_address: u32) -> Result<u8, Ending> {
        self.place += 1;
        if !machine.contains::<1>(real_address) {
            return Err(Ending::NotInStorage(NotThere::Place(self.place)));
        }
        Ok(machine.consult_key(real_address))
    }

    /// Steps 2 and 3 of both: the word MICRSEG, at offset 0; its bit 30 one: refuse.
    #[inline]
    pub fn micrseg(&mut self, machine: &mut Machine<impl References>, guest: &Guest) -> Result<u32, Ending> {
        machine.step = 2;
        let micrseg = self.word(machine, guest.micblok_address())?;
        machine.step = 3;
        if word_bit(micrseg, 30) {
            return Err(Ending::REFUSE);
        }
        Ok(micrseg)
    }
}

/// The page of an address: its swap-table word, and where it is if it is valid.
pub struct RealPage {
    pub swap_address: u32,
    pub swap_word: u32,
    /// Frame with address bits 20-31, if the page entry is valid.
    pub real_address: Option<u32>,
}

impl RealPage {
    /// Seven steps, the first of which has the number `step`.
    #[inline]
    pub fn find(
        machine: &mut Machine<impl References>,
        tried: &mut Tried,
        micrseg: u32,
        address: u32,
        step: u8,
    ) -> Result<RealPage, Ending> {
        // 4K pages; MICRSEG bit 31 chooses 1M segments. For 64K, length (bits 0-7) below address bits 8-11: refuse.
        machine.step = step;
        let format = Format { pages_of_4k: true, segments_of_1m: word_bit(micrseg, 31) };
        if format.segment_table_too_short(micrseg, address) {
            return Err(Ending::REFUSE);
        }
        // SEGPAGE, the segment entry.
        machine.step = step + 1;
        let segment_table = segment_table_origin(micrseg);
        let segment_entry = tried.word(machine, add(segment_table, 4 * format.segment_index(address)))?;
        machine.step = step + 2;
        check_segment_entry(format, segment_entry, address)?;
        // PAGSWP, the swap-table address in bits 8-31 of the word before the page table.
        machine.step = step + 3;
        let page_table = page_table_origin(segment_entry);
        let swap_table = word_bits(tried.word(machine, subtract(page_table, 4))?, 8, 31);
        // The swap-table word.
        machine.step = step + 4;
        let page_index = format.page_index(address);
        let swap_address = add(swap_table, 8 * page_index);
        let swap_word = tried.word(machine, swap_address)?;
        // PAGCORE, the page entry.
        machine.step = step + 5;
        let page_entry = tried.halfword(machine, add(page_table, 2 * page_index))?;
        // Valid and of invalid format: refuse.
        machine.step = step + 6;
        let valid = !format.page_invalid(page_entry);
        if valid && format.page_format_wrong(page_entry) {
            return Err(Ending::REFUSE);
        }
        let real_address = valid.then(|| format.real_address(page_entry, address));
        Ok(RealPage { swap_address, swap_word, real_address })
    }
}

/// Invalid, of invalid format, or its page table too short: refuse.
#[inline]
pub fn check_segment_entry(format: Format, entry: u32, address: u32) -> Result<(), Ending> {
    let too_short = format.page_table_too_short(entry, address);
    if segment_invalid(entry) || segment_format_wrong(entry) || too_short {
        return Err(Ending::REFUSE);
    }
    Ok(())
}
