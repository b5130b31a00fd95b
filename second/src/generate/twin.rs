//! A request for the other list that reads what the request just drafted reads, and stores elsewhere.

use super::build::permit;
use super::draft::Draft;
use super::item::Role;
use super::low_address;
use crate::address::{add, subtract};
use crate::attempt::Instruction;
use crate::call::Request;

/// For SSM, for STCTL with DAT off, for ISK of an invalid page, which reads no key, and for LRA; else none.
pub fn twin(draft: &mut Draft) -> Option<Request> {
    match Instruction::of_first_halfword(draft.first_halfword)? {
        Instruction::SetSystemMask => set_system_mask_twin(draft),
        Instruction::StoreControl if !draft.guest.dat_on() => store_control_twin(draft),
        Instruction::InsertStorageKey => insert_storage_key_twin(draft),
        Instruction::LoadRealAddress => Some(with_another_r1(draft)),
        _ => None,
    }
}

fn insert_storage_key_twin(draft: &mut Draft) -> Option<Request> {
    let page_entry = draft.find(&[Role::RealPageEntry])?.address;
    let invalid = draft.image.byte(add(page_entry, 1)) & 0x08 != 0;
    let request = with_another_r1(draft);
    invalid.then_some(request)
}

/// All fields are shared.
fn with_another_r1(draft: &mut Draft) -> Request {
    let mut request = draft.request();
    request.first_halfword = request.first_halfword & 0xFF0F | (draft.random.below(16) << 4) as u16;
    request
}

/// Another MICBLOK and virtual PSW; the ECBLOK, the instruction, its operand and all tables are shared.
fn set_system_mask_twin(draft: &mut Draft) -> Option<Request> {
    let old_micblok = subtract(draft.find(&[Role::Micvpsw])?.address, 8);
    let old_virtual_psw = draft.find(&[Role::VirtualPsw])?.address;
    let micblok = draft.allocate(12, 8, 0);
    let virtual_psw = draft.allocate_stored(2, 2);
    let miccreg = draft.image.word(add(old_micblok, 4));
    let micvpsw = draft.image.word(add(old_micblok, 8)) & 0xFF00_0000 | virtual_psw;
    let halfword = (draft.image.word(old_virtual_psw) >> 16) as u16;
    draft.image.put_word(add(micblok, 4), miccreg);
    draft.image.put_word(add(micblok, 8), micvpsw);
    draft.image.put_halfword(virtual_psw, halfword);
    let mut request = draft.request();
    request.guest.control_register_6 = request.guest.control_register_6 & 0xFF00_0007 | micblok;
    Some(request)
}

/// Another operand by another base; MICBLOK, ECBLOK and the instruction are shared.
fn store_control_twin(draft: &mut Draft) -> Option<Request> {
    let halfword = draft.find(&[Role::SecondHalfword])?.address;
    let halfword = draft.image.word(halfword) >> 16;
    let (base, displacement) = (halfword >> 12, halfword & 0xFFF);
    if base == 0 {
        return None;
    }
    let items = draft.store_control_items();
    let operand = draft.allocate_stored(4 * items.count, 4);
    for address in items.addresses(operand) {
        permit(draft, address, true);
    }
    let mut request = draft.request();
    low_address::permit(&mut request.guest, operand, items);
    let register = &mut request.guest.general_registers[base as usize];
    *register = *register & 0xFF00_0000 | subtract(operand, displacement);
    Some(request)
}
