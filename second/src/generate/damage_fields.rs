//! Damage to fields in storage: table entries, addresses in control fields, single bits.

use super::damage::edge_address;
use super::draft::Draft;
use super::item::Role;
use crate::address::{add, ADDRESS_MASK};

/// One field damaged.
pub fn damage_field(draft: &mut Draft) {
    match draft.random.below(12) {
        0..=3 => segment_entry(draft),
        4..=6 => page_entry(draft),
        7..=8 => field_address(draft),
        9 => page_table_at_top(draft),
        10 => flag_bit(draft),
        _ => any_bit(draft),
    }
}

fn segment_entry(draft: &mut Draft) {
    // RRB and LRA have both; that for DAT is damaged more often, as its code differs by format.
    let of_dat = if draft.random.percent(50) { draft.find(&[Role::SegmentEntry]) } else { None };
    match of_dat.or_else(|| draft.find(&[Role::SegmentEntry, Role::RealSegmentEntry])) {
        Some(place) => damage_segment_entry(draft, place.address),
        None => any_bit(draft),
    }
}

/// Invalid bit, format bits, length, or page-table origin.
pub fn damage_segment_entry(draft: &mut Draft, address: u32) {
    let word = draft.image.word(address);
    let one_less = (word >> 28).saturating_sub(1) << 28;
    let damaged = match draft.random.below(4) {
        0 => word | 1,
        1 => word | 0x0100_0000 << draft.random.below(4),
        2 => word & 0x0FFF_FFFF | draft.random.pick(&[0, one_less]),
        _ => word & 0xFF00_0007 | edge_address(draft) & 0x00FF_FFF8,
    };
    draft.image.put_word(address, damaged);
}

fn page_entry(draft: &mut Draft) {
    match draft.find(&[Role::PageEntry, Role::RealPageEntry]) {
        Some(place) => damage_page_entry(draft, place.address),
        None => any_bit(draft),
    }
}

/// Invalid bit, format bits, or frame.
pub fn damage_page_entry(draft: &mut Draft, address: u32) {
    let entry = (draft.image.word(address) >> 16) as u16;
    let first_frame_outside = (draft.size() >> 8) as u16;
    let damaged = match draft.random.below(6) {
        0 => entry | 0x0008,
        1 => entry | 0x0004,
        2 => entry | 0x0002,
        3 => entry & 0x0007 | first_frame_outside,
        4 => entry & 0x0007 | u16::from(draft.random.byte()) << 8,
        _ => entry ^ (1 << draft.random.below(16)),
    };
    draft.image.put_halfword(address, damaged);
}

/// The address in MICRSEG, MICCREG, MICVPSW or the swap-table address at an edge.
fn field_address(draft: &mut Draft) {
    let roles = [Role::Micrseg, Role::Miccreg, Role::Micvpsw, Role::SwapAddress];
    let Some(place) = draft.find(&roles) else {
        return any_bit(draft);
    };
    let word = draft.image.word(place.address);
    let kept = if place.role == Role::Micrseg { 0xFF00_0003 } else { !ADDRESS_MASK };
    let address = edge_address(draft);
    draft.image.put_word(place.address, word & kept | address & !kept);
}

/// The page table just past the top of storage, its swap address still inside (SSK and ISK step 9, RRB step 10).
fn page_table_at_top(draft: &mut Draft) {
    let (Some(swap), Some(entry)) = (draft.find(&[Role::SwapAddress]), draft.find(&[Role::RealSegmentEntry]))
    else {
        return segment_entry(draft);
    };
    let swap_address = draft.image.word(swap.address);
    let size = draft.size() & ADDRESS_MASK;
    draft.image.put_word(add(size, 0u32.wrapping_sub(4)), swap_address);
    let word = draft.image.word(entry.address);
    draft.image.put_word(entry.address, word & 0xFF00_0007 | size);
}

/// Bits that steps test: MICRSEG 30 and 31, its length, virtual register 0 bit 1, virtual PSW bit 12.
fn flag_bit(draft: &mut Draft) {
    let Some(place) = draft.find(&[Role::Micrseg, Role::VirtualRegister, Role::VirtualPsw]) else {
        return any_bit(draft);
    };
    let word = draft.image.word(place.address);
    let damaged = match place.role {
        Role::Micrseg => {
            let one_less = word.wrapping_sub(0x0100_0000);
            draft.random.pick(&[word ^ 2, word ^ 1, word & ADDRESS_MASK, one_less])
        }
        Role::VirtualRegister => return virtual_register_0_bit_1(draft),
        _ => word ^ 0x0008_0000,
    };
    draft.image.put_word(place.address, damaged);
}

fn virtual_register_0_bit_1(draft: &mut Draft) {
    let found = draft.places.iter().find(|place| place.role == Role::VirtualRegister);
    if let Some(address) = found.map(|place| place.address) {
        let word = draft.image.word(address);
        draft.image.put_word(address, word | 0x4000_0000);
    }
}

/// Any bit of the first four bytes of any item.
fn any_bit(draft: &mut Draft) {
    if draft.places.is_empty() {
        return;
    }
    let place = draft.places[draft.random.below(draft.places.len() as u32) as usize];
    let address = add(place.address, draft.random.below(4));
    let byte = draft.image.byte(address);
    draft.image.put(address, &[byte ^ (1 << draft.random.below(8))]);
}
