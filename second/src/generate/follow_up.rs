//! Another key instruction of the page that an earlier request of the list names: it finds the key and the swap word as
//! that one left them.

use super::build::permit;
use super::draft::Draft;
use super::item::Role;
use crate::address::subtract;
use crate::attempt::Instruction;
use crate::call::Request;
use crate::setup::PSW_DAT;

/// After an SSK or ISK, if there is one: one of the three, drafted and handed back.
pub fn follow_up(draft: &mut Draft, earlier: &[Request]) -> Option<Request> {
    let with_address: Vec<Request> = earlier
        .iter()
        .copied()
        .filter(|request| [0x08, 0x09].contains(&(request.first_halfword >> 8)))
        .collect();
    if with_address.is_empty() {
        return None;
    }
    let named = draft.random.pick(&with_address);
    draft.start_request();
    let general_registers = draft.guest.general_registers;
    draft.guest = named.guest;
    draft.expanded = named.expanded;
    let r2 = named.first_halfword & 15;
    let instruction = draft.random.pick(&[
        Instruction::SetStorageKey,
        Instruction::InsertStorageKey,
        Instruction::ResetReferenceBit,
    ]);
    // R1 is any register, with other contents if it is not R2.
    let r1 = draft.random.below(16) as u16;
    if r1 != r2 {
        draft.guest.general_registers[usize::from(r1)] = general_registers[usize::from(r1)];
    }
    draft.first_halfword = instruction.first_halfword((r1 << 4 | r2) as u8);
    if instruction == Instruction::ResetReferenceBit && !put_operand(draft, r2) {
        return None;
    }
    Some(draft.request())
}

/// For RRB: a second halfword with R2 as base and a displacement that keeps the page and its half; DAT off. False if R2
/// cannot be a base.
fn put_operand(draft: &mut Draft, r2: u16) -> bool {
    if r2 == 0 {
        return false;
    }
    let halfword = draft.allocate(2, 2, 0);
    draft.note(Role::SecondHalfword, halfword);
    let displacement = draft.random.below(16) as u16;
    draft.image.put_halfword(halfword, r2 << 12 | displacement);
    draft.guest.psw_0_31 &= !PSW_DAT;
    draft.guest.psw_32_63 = draft.guest.psw_32_63 & 0xFF00_0000 | subtract(halfword, 2);
    draft.guest.control_register_6 &= !0x1000_0000;
    permit(draft, halfword, false);
    true
}
