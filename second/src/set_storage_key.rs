//! SET STORAGE KEY, by the steps of document 01.

use crate::address::{add, subtract};
use crate::bits::{halfword_bits, word_bit, word_bits};
use crate::control_block::{fetch_field_halfword, fetch_field_word, fetch_micrseg};
use crate::ending::{Ending, NotThere};
use crate::guest::Guest;
use crate::machine::{Machine, KEY_CHANGE, KEY_REFERENCE};
use crate::references::References;
use crate::translation::{
    page_table_origin, segment_format_wrong, segment_invalid, segment_table_origin, Format,
};

/// Key bits 0-4: access and fetch protection.
const KEY_ACCESS_AND_FETCH: u8 = 0xF8;
/// Key bit 7 is ignored and left as found.
const KEY_BIT_7: u8 = 0x01;
/// R1 bits 24-30.
const VIRTUAL_KEY: u8 = 0xFE;

pub fn set_storage_key(
    machine: &mut Machine<impl References>,
    guest: &Guest,
    first_halfword: u16,
) -> Result<(), Ending> {
    let r1 = guest.general_register(halfword_bits(first_halfword, 8, 11));
    let r2 = guest.general_register(halfword_bits(first_halfword, 12, 15));
    let new_key = word_bits(r1, 24, 31) as u8;
    let address = word_bits(r2, 8, 31);
    // (1) Control register 6 bits 0-2 not 100, or bits 28-31 of register R2 not zero: refuse.
    machine.step = 1;
    if word_bits(guest.control_register_6, 0, 2) != 0b100 || word_bits(r2, 28, 31) != 0 {
        return Err(Ending::REFUSE);
    }
    // (2) MICRSEG.
    machine.step = 2;
    let micrseg = fetch_micrseg(machine, guest)?;
    let format = check_micrseg(machine, micrseg, address)?;
    let segment_entry = fetch_segment_entry(machine, micrseg, format, address)?;
    let page_table = page_table_origin(segment_entry);
    let (swap_address, swap_word) = fetch_swap_word(machine, page_table, format.page_index(address))?;
    let real_address = fetch_page_entry(machine, page_table, format, address)?;
    // (11) If invalid, take both bits as zero and touch no key.
    machine.step = 11;
    let key = match real_address {
        Some(real_address) => exchange_key(machine, real_address, new_key)?,
        None => 0,
    };
    // (12)
    machine.step = 12;
    let new_word = new_swap_word(swap_word, key, new_key, word_bit(address, 20));
    machine.store(swap_address, new_word);
    Ok(())
}

/// Steps 3 and 4.
#[inline]
fn check_micrseg(
    machine: &mut Machine<impl References>,
    micrseg: u32,
    address: u32,
) -> Result<Format, Ending> {
    // (3) Its bit 30 one: refuse.
    machine.step = 3;
    if word_bit(micrseg, 30) {
        return Err(Ending::REFUSE);
    }
    // (4) 4K pages; bit 31 chooses 1M segments. For 64K, length (bits 0-7) below address bits 8-11: refuse.
    machine.step = 4;
    let format = Format { pages_of_4k: true, segments_of_1m: word_bit(micrseg, 31) };
    if format.segment_table_too_short(micrseg, address) {
        return Err(Ending::REFUSE);
    }
    Ok(format)
}

/// Steps 5 and 6.
#[inline]
fn fetch_segment_entry(
    machine: &mut Machine<impl References>,
    micrseg: u32,
    format: Format,
    address: u32,
) -> Result<u32, Ending> {
    // (5) Segment entry; origin from MICRSEG bits 8-25.
    machine.step = 5;
    let entry_address = add(segment_table_origin(micrseg), 4 * format.segment_index(address));
    let entry = fetch_field_word(machine, entry_address)?;
    // (6) Bit 31 one, bits 4-7 not zero, or page index too long: refuse.
    machine.step = 6;
    let page_index_too_long = format.page_table_too_short(entry, address);
    if segment_invalid(entry) || segment_format_wrong(entry) || page_index_too_long {
        return Err(Ending::REFUSE);
    }
    Ok(entry)
}

/// Steps 7 and 8: gives the address of the swap word, and the word.
#[inline]
fn fetch_swap_word(
    machine: &mut Machine<impl References>,
    page_table: u32,
    page_index: u32,
) -> Result<(u32, u32), Ending> {
    // (7) Word at page-table origin - 4, the swap-table address (bits 8-31).
    machine.step = 7;
    let word = fetch_field_word(machine, subtract(page_table, 4))?;
    let swap_table = word_bits(word, 8, 31);
    // (8) Word there + 8 times the page index.
    machine.step = 8;
    let swap_address = add(swap_table, 8 * page_index);
    let swap_word = fetch_field_word(machine, swap_address)?;
    Ok((swap_address, swap_word))
}

/// Steps 9 and 10: gives the real address if the page is valid.
#[inline]
fn fetch_page_entry(
    machine: &mut Machine<impl References>,
    page_table: u32,
    format: Format,
    address: u32,
) -> Result<Option<u32>, Ending> {
    // (9) Page entry.
    machine.step = 9;
    let entry = fetch_field_halfword(machine, add(page_table, 2 * format.page_index(address)))?;
    // (10) Valid with bits 13-14 not zero: refuse.
    machine.step = 10;
    if format.page_invalid(entry) {
        return Ok(None);
    }
    if format.page_format_wrong(entry) {
        return Err(Ending::REFUSE);
    }
    Ok(Some(format.real_address(entry, address)))
}

/// Step 11 for a valid page: gives the key as found, with what the fetches of the steps before have recorded.
#[inline]
fn exchange_key(
    machine: &mut Machine<impl References>,
    real_address: u32,
    new_key: u8,
) -> Result<u8, Ending> {
    if !machine.contains::<1>(real_address) {
        return Err(Ending::NotInStorage(NotThere::Step(machine.step)));
    }
    let old = machine.consult_key(real_address);
    machine.set_key(real_address, (new_key & KEY_ACCESS_AND_FETCH) | (old & KEY_BIT_7));
    Ok(old)
}

/// Step 12: bits 4 and 5 with byte 2 (address bit 20 zero), or bits 6 and 7 with byte 3 (one).
fn new_swap_word(swap_word: u32, key: u8, new_key: u8, bit_20: bool) -> [u8; 4] {
    let mut bytes = swap_word.to_be_bytes();
    let (reference_bit, change_bit, key_byte) = if bit_20 { (0x02, 0x01, 3) } else { (0x08, 0x04, 2) };
    if key & KEY_REFERENCE != 0 {
        bytes[0] |= reference_bit;
    }
    if key & KEY_CHANGE != 0 {
        bytes[0] |= change_bit;
    }
    bytes[key_byte] = new_key & VIRTUAL_KEY;
    bytes
}
