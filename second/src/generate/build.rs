//! Calls built so that they complete.

use super::build_key;
use super::build_lra;
use super::draft::Draft;
use super::item::{Items, Role};
use super::low_address;
use super::tables::Mapping;
use crate::address::{add, subtract};
use crate::attempt::Instruction;

/// Share of the calls in which a word across a block boundary is looked for among the virtual registers, in percent.
const REGISTER_ACROSS: u32 = 8;

/// Draft a request for one instruction, with all that it needs in storage.
pub fn build(draft: &mut Draft, instruction: Instruction) {
    draft.first_halfword = instruction.first_halfword(draft.random.byte());
    draft.expanded = draft.random.percent(50);
    let micblok = draft.allocate(12, 8, 0);
    draft.guest.control_register_6 |= micblok;
    match instruction {
        Instruction::SetStorageKey => build_key::set_storage_key(draft, micblok),
        Instruction::InsertStorageKey => build_key::insert_storage_key(draft, micblok),
        Instruction::ResetReferenceBit => build_key::reset_reference_bit(draft, micblok),
        Instruction::LoadRealAddress => build_lra::load_real_address(draft, micblok),
        _ => build_with_operand(draft, micblok, instruction),
    }
}

fn build_with_operand(draft: &mut Draft, micblok: u32, instruction: Instruction) {
    let pending = draft.random.percent(30);
    put_control_blocks(draft, micblok, instruction, pending);
    let (halfword, mut mapping) = put_instruction(draft);
    let operand = match instruction {
        Instruction::StoreControl => store_control_operand(draft, &mut mapping),
        _ => byte_operand(draft, &mut mapping, instruction, pending),
    };
    if let Some(mapping) = &mapping {
        mapping.put_tables(draft);
    }
    put_second_halfword(draft, halfword, operand);
}

/// A place for the second halfword, whose contents are put later, and the instruction address; with DAT on the mapping
/// has its page. Control register 6 bit 2 is random: these instructions do not look at it.
pub fn put_instruction(draft: &mut Draft) -> (u32, Option<Mapping>) {
    let bit_2 = draft.random.below(2);
    draft.guest.control_register_6 |= bit_2 << 29;
    let halfword = draft.allocate(2, 2, 0);
    draft.note(Role::SecondHalfword, halfword);
    let mut mapping = draft.guest.dat_on().then(|| Mapping::for_dat(draft));
    let halfword_logical = logical_of(draft, &mut mapping, halfword);
    draft.guest.psw_32_63 |= subtract(halfword_logical, 2);
    permit(draft, halfword, false);
    (halfword, mapping)
}

/// MICCREG, MICVPSW, virtual registers and virtual PSW; bits 0-7 that are not used are random.
fn put_control_blocks(draft: &mut Draft, micblok: u32, instruction: Instruction, pending: bool) {
    if instruction != Instruction::StoreThenAnd && instruction != Instruction::StoreThenOr {
        put_ecblok(draft, micblok, instruction);
    }
    let virtual_psw = match instruction {
        Instruction::StoreControl => draft.allocate(2, 2, 0),
        _ => place_virtual_psw(draft),
    };
    put_virtual_psw(draft, micblok, virtual_psw, pending);
    draft.note(Role::Micvpsw, add(micblok, 8));
    draft.note(Role::VirtualPsw, virtual_psw);
}

/// For an instruction that stores in it (STCTL does not even fetch it); in part at a low address.
fn place_virtual_psw(draft: &mut Draft) -> u32 {
    low_address::place_field(draft, 2).unwrap_or_else(|| {
        let alignment = draft.block_alignment();
        draft.allocate_stored(2, alignment)
    })
}

/// MICCREG and the virtual registers.
fn put_ecblok(draft: &mut Draft, micblok: u32, instruction: Instruction) {
    let ecblok = place_ecblok(draft, instruction);
    let high = draft.random.word() & 0xFF00_0000;
    draft.image.put_word(add(micblok, 4), high | ecblok);
    draft.note(Role::Miccreg, add(micblok, 4));
    for number in 0..16 {
        let bit_1 = if number == 0 && instruction == Instruction::SetSystemMask { 0x4000_0000 } else { 0 };
        let value = draft.random.word() & !bit_1;
        draft.image.put_word(add(ecblok, 4 * number), value);
        draft.note(Role::VirtualRegister, add(ecblok, 4 * number));
    }
}

/// In part such that a register that is fetched, of SSM register 0, lies across a block boundary. LRA's has its first
/// two registers only.
pub fn place_ecblok(draft: &mut Draft, instruction: Instruction) -> u32 {
    let length = if instruction == Instruction::LoadRealAddress { 8 } else { 64 };
    if draft.random.percent(REGISTER_ACROSS) {
        let number = match instruction {
            Instruction::StoreControl => draft.draw_named_register(),
            Instruction::LoadRealAddress => draft.random.below(2),
            _ => 0,
        };
        if let Some(ecblok) = draft.allocate_across(length, 4 * number) {
            return ecblok;
        }
    }
    let alignment = draft.block_alignment();
    draft.allocate(length, alignment, 0)
}

/// MICVPSW and the virtual PSW.
pub fn put_virtual_psw(draft: &mut Draft, micblok: u32, virtual_psw: u32, pending: bool) {
    let pending_bit = if pending { 0x8000_0000 } else { 0 };
    let high = draft.random.word() & 0x7F00_0000;
    draft.image.put_word(add(micblok, 8), pending_bit | high | virtual_psw);
    let value = draft.random.word() as u16;
    draft.image.put_halfword(virtual_psw, value);
}

fn logical_of(draft: &mut Draft, mapping: &mut Option<Mapping>, real: u32) -> u32 {
    match mapping {
        Some(mapping) => mapping.logical_of_real(draft, real),
        None => real,
    }
}

/// Make the key of a block permit a fetch or a store.
pub fn permit(draft: &mut Draft, real: u32, store: bool) {
    let (number, psw_key) = (real / 2048, draft.guest.psw_key() as u8);
    let key = draft.image.key(number);
    if psw_key == 0 || key >> 4 == psw_key {
        return;
    }
    let permitted = if store || draft.random.percent(50) { key & 0x0F | psw_key << 4 } else { key & !0x08 };
    draft.image.put_key(number, permitted);
}

/// The operand byte of SSM, STNSM and STOSM, with mask values that complete; gives its logical address.
fn byte_operand(
    draft: &mut Draft,
    mapping: &mut Option<Mapping>,
    instruction: Instruction,
    pending: bool,
) -> u32 {
    let virtual_psw = draft.find(&[Role::VirtualPsw]).map_or(0, |place| place.address);
    let old = draft.image.byte(virtual_psw);
    let ec_mode = draft.image.byte(add(virtual_psw, 1)) & 0x08 != 0;
    let store = instruction != Instruction::SetSystemMask;
    let (logical, real) =
        if store { stored_byte(draft, mapping, virtual_psw) } else { fetched_byte(draft, mapping) };
    draft.note(Role::Operand, real);
    permit(draft, real, store);
    let value = completing_value(draft, instruction, (old, ec_mode), pending);
    put_value(draft, instruction, real, value);
    logical
}

/// The new mask is SSM's operand, at this real address; for STNSM and STOSM the value is the immediate.
pub fn put_value(draft: &mut Draft, instruction: Instruction, operand: u32, value: u8) {
    if instruction == Instruction::SetSystemMask {
        draft.image.put(operand, &[value]);
    } else {
        draft.first_halfword = draft.first_halfword & 0xFF00 | u16::from(value);
    }
}

/// Logical and real address of SSM's operand.
fn fetched_byte(draft: &mut Draft, mapping: &mut Option<Mapping>) -> (u32, u32) {
    let real = draft.allocate(1, 1, 0);
    (logical_of(draft, mapping, real), real)
}

/// Logical and real address of STNSM's or STOSM's operand, in part a byte of the virtual PSW.
fn stored_byte(draft: &mut Draft, mapping: &mut Option<Mapping>, virtual_psw: u32) -> (u32, u32) {
    let (logical, real) = if let Some(logical) = low_address::place(draft, mapping, Items::BYTE) {
        (logical, real_of(mapping, logical))
    } else {
        let in_virtual_psw = draft.random.percent(15);
        let real = if in_virtual_psw {
            add(virtual_psw, draft.random.below(2))
        } else {
            draft.allocate_stored(1, 1)
        };
        (logical_of(draft, mapping, real), real)
    };
    low_address::permit(&mut draft.guest, logical, Items::BYTE);
    (logical, real)
}

/// New mask (SSM) or immediate (STNSM, STOSM) with which the instruction completes.
pub fn completing_value(draft: &mut Draft, instruction: Instruction, old: (u8, bool), pending: bool) -> u8 {
    let (old, ec_mode) = old;
    let value = draft.random.byte();
    match (instruction, ec_mode, pending) {
        (Instruction::SetSystemMask, true, false) => old & 0x44 | value & 0x03,
        (Instruction::SetSystemMask, true, true) => old & 0x44 | value & old & 0x03,
        (Instruction::SetSystemMask, false, true) => value & old,
        (Instruction::StoreThenAnd, true, _) => value | old & 0x44,
        (Instruction::StoreThenOr, _, true) => value & old,
        (Instruction::StoreThenOr, true, false) => value & (old | 0x03),
        _ => value,
    }
}

/// The operand words of STCTL; gives the logical address of the first.
fn store_control_operand(draft: &mut Draft, mapping: &mut Option<Mapping>) -> u32 {
    let items = draft.store_control_items();
    let start = match low_address::place(draft, mapping, items) {
        Some(start) => start,
        None => match mapping {
            Some(mapping) => mapped_words(draft, mapping, items),
            None => draft.allocate_stored(4 * items.count, 4),
        },
    };
    for logical in items.addresses(start) {
        let real = real_of(mapping, logical);
        draft.note(Role::Operand, real);
        permit(draft, real, true);
    }
    low_address::permit(&mut draft.guest, start, items);
    start
}

fn real_of(mapping: &Option<Mapping>, logical: u32) -> u32 {
    mapping.as_ref().map_or(logical, |mapping| mapping.real_of(logical))
}

/// Logical words in one page or across the end of one, each page in a frame that has the words in storage.
fn mapped_words(draft: &mut Draft, mapping: &mut Mapping, items: Items) -> u32 {
    let page_size = mapping.page_size();
    for _ in 0..60 {
        let offset = if draft.random.percent(35) {
            page_size - 4 * (1 + draft.random.below(items.count))
        } else {
            draft.random.below(page_size.min(draft.size()) / 4) * 4
        };
        let page = mapping.candidate_page(draft);
        let start = add(page << mapping.shifts.page, offset);
        if mapping.map_items(draft, start, items) {
            return start;
        }
    }
    0
}

/// Base and displacement that give the operand's address.
pub fn put_second_halfword(draft: &mut Draft, halfword: u32, operand: u32) {
    let base_0 = operand < 0x1000 && draft.random.percent(50);
    let base = if base_0 { 0 } else { 1 + draft.random.below(15) };
    let displacement = if base_0 { operand } else { draft.random.below(0x1000) };
    if base != 0 {
        let high = draft.random.word() & 0xFF00_0000;
        draft.guest.general_registers[base as usize] = high | subtract(operand, displacement);
    }
    draft.image.put_halfword(halfword, (base << 12 | displacement) as u16);
}
