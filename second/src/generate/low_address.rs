//! Operands at and near the logical addresses 0 to 511, which bit 3 of control register 0 protects against operand
//! stores (document 02, R-6).

use super::draft::Draft;
use super::item::{Items, Role};
use super::random::Random;
use super::tables::Mapping;
use crate::address::{add, subtract, ADDRESS_MASK};
use crate::guest::Guest;
use crate::setup::LOW_ADDRESS_PROTECTION;

/// Share of the operand stores that are built near these addresses, in percent.
const NEAR: u32 = 47;

/// Share of the virtual PSWs that are looked for there, in percent.
const FIELDS: u32 = 20;

/// The first logical address that is not protected.
const FIRST_OPEN: u32 = 512;

/// So that a call completes, bit 3 is zero if any item is at a low address; else it stays.
pub fn permit(guest: &mut Guest, start: u32, items: Items) {
    if items.addresses(start).any(|logical| logical < FIRST_OPEN) {
        guest.control_register_0 &= !LOW_ADDRESS_PROTECTION;
    }
}

pub fn turn_over(guest: &mut Guest) {
    guest.control_register_0 ^= LOW_ADDRESS_PROTECTION;
}

/// In part a logical address near the low ones at which the items can be stored, if there is one. With DAT on their
/// pages are mapped.
pub fn place(draft: &mut Draft, mapping: &mut Option<Mapping>, items: Items) -> Option<u32> {
    if !draft.random.percent(NEAR) {
        return None;
    }
    for _ in 0..20 {
        let start = near(&mut draft.random, items);
        let placed = match mapping {
            Some(mapping) => mapping.map_items(draft, start, items),
            None => draft.take_stored(start, items.count * items.length),
        };
        if placed {
            // Just above, bit 3 is zero more often than one, as damage sets it.
            if draft.random.percent(35) {
                draft.guest.control_register_0 &= !LOW_ADDRESS_PROTECTION;
            }
            return Some(start);
        }
    }
    None
}

/// In part a low address for a field of so many bytes that is stored: these addresses are not protected against it.
pub fn place_field(draft: &mut Draft, length: u32) -> Option<u32> {
    let address = draft.random.below(FIRST_OPEN);
    (draft.random.percent(FIELDS) && draft.take_stored(address, length)).then_some(address)
}

/// Items that end or begin at 512 or lie on both sides of it, that begin at 0 or go round to it, or any near there.
fn near(random: &mut Random, items: Items) -> u32 {
    let back = |items_before: u32| items.length * items_before;
    let start = match random.below(11) {
        0..=2 => subtract(FIRST_OPEN, back(random.below(items.count + 1))),
        3..=5 => subtract(0, back(random.below(items.count))),
        6..=7 => random.pick(&[508, 510, 510, 516]),
        8 => subtract(FIRST_OPEN, back(items.count)),
        9 => FIRST_OPEN + random.below(8),
        _ => random.below(520),
    };
    start - start % items.length
}

/// Bit 3 one, the operand near the low addresses, or both; in part the tables too.
pub fn damage(draft: &mut Draft) {
    let kind = draft.random.below(5);
    if kind != 0 {
        draft.guest.control_register_0 |= LOW_ADDRESS_PROTECTION;
    }
    // RRB and LRA store at no operand.
    if kind < 3 && ![0xB1, 0xB2].contains(&(draft.first_halfword >> 8)) {
        move_operand(draft);
    }
    if draft.guest.dat_on() && draft.random.percent(30) {
        damage_tables(draft);
    }
}

/// The low addresses are in page 0 of segment 0: one of the two entries gives an exception, which protection comes
/// before.
fn damage_tables(draft: &mut Draft) {
    let segment_entry = draft.guest.control_register_1 & 0x00FF_FFC0;
    let word = draft.image.word(segment_entry);
    let page_entry = word & 0x00FF_FFF8;
    match draft.random.below(5) {
        0 => draft.image.put_word(segment_entry, word | 0x0000_0001),
        1 => draft.image.put_word(segment_entry, word | 0x0100_0000),
        // The page table just past the top of storage.
        2 => {
            let top = draft.size() & ADDRESS_MASK;
            draft.image.put_word(segment_entry, word & !ADDRESS_MASK | top);
        }
        // Bit 12 is the invalid bit of 4K pages, bit 13 that of 2K pages.
        _ => {
            let entry = draft.image.word(page_entry) >> 16 | 0x000C;
            draft.image.put_halfword(page_entry, entry as u16);
        }
    }
}

fn move_operand(draft: &mut Draft) {
    let Some(place) = draft.find(&[Role::SecondHalfword]) else {
        return;
    };
    let halfword = draft.image.word(place.address) >> 16;
    let (base, displacement) = (halfword >> 12, halfword & 0xFFF);
    // STCTL's words in part not on their boundary.
    let odd = draft.random.pick(&[0, 0, 0, 2]);
    let items = if draft.first_halfword >> 8 == 0xB6 { draft.store_control_items() } else { Items::BYTE };
    let start = add(near(&mut draft.random, items), odd);
    if base == 0 {
        draft.image.put_halfword(place.address, (start & 0xFFF) as u16);
    } else {
        let register = &mut draft.guest.general_registers[base as usize];
        *register = *register & !ADDRESS_MASK | subtract(start, displacement);
    }
}
