//! Damage to what LRA alone has: virtual control registers 0 and 1, virtual tables, and the real tables of both walks;
//! and to DAT's entries for its second halfword, which general damage seldom comes to.

use super::damage::edge_address;
use super::damage_fields::{damage_page_entry, damage_segment_entry};
use super::draft::Draft;
use super::item::Role;
use crate::address::{add, subtract, ADDRESS_MASK};

/// One damage, chosen at random.
pub fn damage(draft: &mut Draft) {
    match draft.random.below(22) {
        0..=1 => virtual_format(draft),
        2..=3 => virtual_segment_table(draft),
        4..=5 => ecblok(draft),
        6..=8 => micrseg(draft),
        9 => segment_entry(draft, Role::RealSegmentEntry),
        10..=11 => segment_entry(draft, Role::SecondRealSegmentEntry),
        12 => page_entry(draft, Role::RealPageEntry),
        13..=14 => page_entry(draft, Role::SecondRealPageEntry),
        15..=16 => segment_entry(draft, Role::VirtualSegmentEntry),
        17..=18 => page_entry(draft, Role::VirtualPageEntry),
        19 => second_walk_outside(draft),
        20 => segment_entry(draft, Role::SegmentEntry),
        _ => page_entry(draft, Role::PageEntry),
    }
}

/// Where virtual control registers 0 and 1 are.
fn registers(draft: &Draft) -> Option<[u32; 2]> {
    let mut places = draft.places.iter().filter(|place| place.role == Role::VirtualRegister);
    Some([places.next()?.address, places.next()?.address])
}

/// Virtual control register 0: one of bits 8-12 turned over, or all five at random.
fn virtual_format(draft: &mut Draft) {
    let Some([address, _]) = registers(draft) else {
        return;
    };
    let turned = if draft.random.percent(60) { 1 << draft.random.below(5) } else { draft.random.below(32) };
    let word = draft.image.word(address);
    draft.image.put_word(address, word ^ turned << 19);
}

/// Virtual control register 1: length or origin.
fn virtual_segment_table(draft: &mut Draft) {
    let Some([_, address]) = registers(draft) else {
        return;
    };
    let word = draft.image.word(address);
    let damaged = match draft.random.below(5) {
        0 => word & ADDRESS_MASK,
        1 => word & ADDRESS_MASK | (word >> 24).saturating_sub(1) << 24,
        2 => word & !ADDRESS_MASK | add(word, 0x40),
        3 => word & !ADDRESS_MASK | edge_address(draft),
        _ => word & !ADDRESS_MASK | draft.random.word() & ADDRESS_MASK,
    };
    draft.image.put_word(address, damaged);
}

/// Both registers elsewhere: at the top of storage, in part the second outside, or the first.
fn ecblok(draft: &mut Draft) {
    let (Some(places), Some(miccreg)) = (registers(draft), draft.find(&[Role::Miccreg])) else {
        return;
    };
    let size = draft.size();
    let elsewhere = match draft.random.below(5) {
        0..=1 => subtract(size, 4),
        2 => subtract(size, 1 + draft.random.below(11)),
        3 => size & ADDRESS_MASK,
        _ => edge_address(draft),
    };
    let words = places.map(|address| draft.image.word(address));
    draft.image.put_word(elsewhere, words[0]);
    draft.image.put_word(add(elsewhere, 4), words[1]);
    let word = draft.image.word(miccreg.address);
    draft.image.put_word(miccreg.address, word & !ADDRESS_MASK | elsewhere);
}

/// Page or segment size, length, or origin.
fn micrseg(draft: &mut Draft) {
    let Some(place) = draft.find(&[Role::Micrseg]) else {
        return;
    };
    let word = draft.image.word(place.address);
    let damaged = match draft.random.below(5) {
        0 => word ^ 2,
        1 => word ^ 1,
        2 => word & ADDRESS_MASK,
        // In part long enough for one of the walks.
        3 => {
            let one_less = (word >> 24).saturating_sub(1);
            let any = draft.random.below(16);
            word & ADDRESS_MASK | draft.random.pick(&[one_less, any]) << 24
        }
        _ => word & 0xFF00_003F | edge_address(draft) & 0x00FF_FFC0,
    };
    draft.image.put_word(place.address, damaged);
}

fn segment_entry(draft: &mut Draft, role: Role) {
    if let Some(place) = draft.find(&[role]) {
        damage_segment_entry(draft, place.address);
    }
}

fn page_entry(draft: &mut Draft, role: Role) {
    if let Some(place) = draft.find(&[role]) {
        damage_page_entry(draft, place.address);
    }
}

/// The virtual page table where the second walk's segment entry is not in storage. With real segments of 1M all entries
/// are in the 64 bytes from the origin on, and so all in storage if the first walk's is.
fn second_walk_outside(draft: &mut Draft) {
    let (Some(micrseg), Some(entry)) =
        (draft.find(&[Role::Micrseg]), draft.find(&[Role::VirtualSegmentEntry]))
    else {
        return;
    };
    let micrseg_word = draft.image.word(micrseg.address);
    for _ in 0..20 {
        let page_table = draft.random.word() & 0x00FF_FFF8;
        let real_entry = add(micrseg_word & 0x00FF_FFC0, 4 * (page_table >> 16));
        if micrseg_word & 1 == 0 && real_entry >= draft.size() {
            let word = draft.image.word(entry.address);
            draft.image.put_word(entry.address, word & 0xFF00_0007 | page_table);
            draft.image.put_word(micrseg.address, micrseg_word | 0xFF00_0000);
            return;
        }
    }
    segment_entry(draft, Role::SecondRealSegmentEntry);
}
