//! SSK, ISK and RRB calls built so that they complete.

use super::build::{put_instruction, put_second_halfword, put_virtual_psw};
use super::draft::Draft;
use super::item::{Place, Role};
use crate::address::{add, subtract, KEY_BLOCK};
use crate::machine::KEY_REFERENCE;

/// Whether the swap word is stored, or only read.
#[derive(Clone, Copy, PartialEq, Eq)]
enum SwapWord {
    Stored,
    Read,
}

pub fn set_storage_key(draft: &mut Draft, micblok: u32) {
    let address = draft.random.word() & 0x00FF_FFF0;
    put_address_in_register(draft, address);
    put_unused_virtual_psw(draft, micblok);
    put_real_tables(draft, micblok, address, SwapWord::Stored);
}

/// In part R1 and R2 are the same register. MICVPSW and the virtual PSW are noted before the page's frame is chosen, so
/// that in part they are in the block whose key is read before them.
pub fn insert_storage_key(draft: &mut Draft, micblok: u32) {
    if draft.random.percent(45) {
        let number = draft.first_halfword & 15;
        draft.first_halfword = draft.first_halfword & 0xFF00 | number << 4 | number;
    }
    let alignment = draft.block_alignment();
    let virtual_psw = draft.allocate(2, alignment, 0);
    let mut address = draft.random.word() & 0x00FF_FFF0;
    if draft.random.percent(70) {
        address = address & !0x800 | virtual_psw & 0x800;
    }
    put_address_in_register(draft, address);
    let pending = draft.random.percent(30);
    put_virtual_psw(draft, micblok, virtual_psw, pending);
    draft.note(Role::Micvpsw, add(micblok, 8));
    draft.note(Role::VirtualPsw, virtual_psw);
    put_real_tables(draft, micblok, address, SwapWord::Read);
}

/// DAT's tables are noted before the page's frame is chosen.
pub fn reset_reference_bit(draft: &mut Draft, micblok: u32) {
    let (halfword, mapping) = put_instruction(draft);
    if let Some(mapping) = &mapping {
        mapping.put_tables(draft);
    }
    let addresses = draft.random.pick(&[0x0000_0FFF, 0x00FF_FFFF, 0x00FF_FFFF, 0x00FF_FFFF]);
    let address = draft.random.word() & addresses;
    put_unused_virtual_psw(draft, micblok);
    put_real_tables(draft, micblok, address, SwapWord::Stored);
    put_second_halfword(draft, halfword, address);
}

/// For SSK and ISK: register R2, the instruction address, and bit 3 of control register 6, which they do not look at.
fn put_address_in_register(draft: &mut Draft, address: u32) {
    let bit_3 = draft.random.below(2);
    draft.guest.control_register_6 |= bit_3 << 28;
    let round = if draft.random.percent(5) { 0x00FF_FFFE } else { 0 };
    draft.guest.psw_32_63 |= draft.random.word() & 0x00FF_FFFE | round;
    let high = draft.random.word() & 0xFF00_0000;
    let r2 = usize::from(draft.first_halfword & 15);
    draft.guest.general_registers[r2] = high | address;
}

/// MICVPSW and a virtual PSW that the request does not use; an ISK of the same page may (see `follow_up`).
fn put_unused_virtual_psw(draft: &mut Draft, micblok: u32) {
    let virtual_psw = draft.allocate(2, 2, 0);
    put_virtual_psw(draft, micblok, virtual_psw, false);
}

/// MICRSEG, segment entry, page table with its swap address, swap word, and the key block.
fn put_real_tables(draft: &mut Draft, micblok: u32, address: u32, swap_word: SwapWord) {
    let segments_of_1m = draft.random.percent(50);
    let segment_shift = if segments_of_1m { 20 } else { 16 };
    let segment = address >> segment_shift;
    let page = (address >> 12) & ((1 << (segment_shift - 12)) - 1);

    let entry_address = draft.allocate(4, 64, 4 * segment % 64);
    draft.note(Role::RealSegmentEntry, entry_address);
    let segment_table = subtract(entry_address, 4 * segment);
    let length = (address >> 20) + draft.random.pick(&[0, 0, 1, 200]);
    let length = if segments_of_1m { draft.random.below(256) } else { length };
    let unused_bits = draft.random.below(16) << 2;
    let micrseg = length << 24 | segment_table | unused_bits | u32::from(segments_of_1m);
    draft.image.put_word(micblok, micrseg);
    draft.note(Role::Micrseg, micblok);

    let page_table = put_page_table(draft, address, page);
    let page_length = (address >> (segment_shift - 4)) & 15;
    let page_length = (page_length + draft.random.pick(&[0, 0, 1, 15])).min(15);
    let other_bits = draft.random.pick(&[0, 2, 4, 6]);
    draft.image.put_word(entry_address, page_length << 28 | page_table | other_bits);
    put_swap_table(draft, page_table, page, swap_word);
}

/// A page table with the word before it and the page's entry in storage; gives its origin. MICRSEG, the segment entry
/// and what is fetched besides the tables have been noted.
fn put_page_table(draft: &mut Draft, address: u32, page: u32) -> u32 {
    let mut origin = 8;
    for _ in 0..200 {
        origin = add(draft.candidate(4, 8, 4), 4);
        if draft.free(subtract(origin, 4), 4) && draft.free(add(origin, 2 * page), 2) {
            break;
        }
    }
    draft.take(subtract(origin, 4), 4);
    draft.take(add(origin, 2 * page), 2);
    draft.note(Role::SwapAddress, subtract(origin, 4));
    draft.note(Role::RealPageEntry, add(origin, 2 * page));
    let entry = match frame_for(draft, address & 0xFFF) {
        Some(frame) if draft.random.percent(64) => {
            draft.draw_key(frame << 12 | address & 0xFFF);
            frame << 4 | draft.random.below(2)
        }
        _ => draft.random.below(0x1_0000) | 0x0008,
    };
    draft.image.put_halfword(add(origin, 2 * page), entry as u16);
    origin
}

/// A frame of 4K in which the byte with this offset is in storage; in part that of an item noted so far, of ISK also
/// that of the virtual PSW, which it fetches after the key. Such a block has its reference bit zero more often than
/// not, so that what is recorded shows.
fn frame_for(draft: &mut Draft, offset: u32) -> Option<u32> {
    let frame = match draft.random.below(100) {
        0..=37 => frame_of_item(draft, offset, |_| true),
        38..=72 => frame_of_item(draft, offset, |role| role == Role::VirtualPsw),
        _ => None,
    };
    if let Some(frame) = frame {
        if draft.random.percent(70) {
            let number = (frame << 12 | offset) / KEY_BLOCK;
            let key = draft.image.key(number);
            draft.image.put_key(number, key & !KEY_REFERENCE);
        }
        return Some(frame);
    }
    let frames = draft.size().div_ceil(4096);
    for _ in 0..40 {
        let frame = draft.random.below(frames);
        if draft.contains_stored((frame << 12) + offset, 1) {
            return Some(frame);
        }
    }
    None
}

/// A frame in which the byte with this offset is in the block of an item noted so far, so that the request's own fetch
/// records in the block whose key it reads.
fn frame_of_item(draft: &mut Draft, offset: u32, wanted: fn(Role) -> bool) -> Option<u32> {
    let mut frames: Vec<u32> = Vec::new();
    let in_half = |place: &&Place| wanted(place.role) && (place.address ^ offset) & 0x800 == 0;
    for place in draft.places.iter().filter(in_half) {
        frames.extend(
            Some(place.address >> 12).filter(|frame| draft.contains_stored((frame << 12) + offset, 1)),
        );
    }
    if frames.is_empty() {
        None
    } else {
        Some(draft.random.pick(&frames))
    }
}

/// Some swap words have their virtual reference bits zero, some the change bits too, so that RRB's condition codes 0
/// and 1 are not seldom.
fn put_swap_table(draft: &mut Draft, page_table: u32, page: u32, use_of_word: SwapWord) {
    let alignment = draft.block_alignment();
    let swap_word = match use_of_word {
        SwapWord::Stored => draft.allocate_stored(4, alignment),
        SwapWord::Read => draft.allocate(4, alignment, 0),
    };
    let zeros = match draft.random.below(8) {
        0 => 0x0000_0404,
        1 => 0x0000_0606,
        _ => 0,
    };
    let value = draft.random.word() & !zeros;
    draft.image.put_word(swap_word, value);
    draft.note(Role::SwapWord, swap_word);
    let high = draft.random.word() & 0xFF00_0000;
    let swap_table = subtract(swap_word, 8 * page);
    draft.image.put_word(subtract(page_table, 4), high | swap_table);
}
