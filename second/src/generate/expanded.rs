//! Masks with which SSM, STNSM and STOSM come to "expanded", or SSM to its refusal in BC mode. What "expanded" then
//! means is decided by the flag and control register 6 bit 6 (document 02, R-3), which every draft has at random.

use super::build::{completing_value, put_value};
use super::draft::Draft;
use super::item::Role;
use super::random::Random;
use crate::address::add;
use crate::attempt::Instruction;
use crate::guest::Guest;
use crate::setup::EXPANDED_ON;

/// Why an attempt ends: one bit of byte 0 that changes, in this mode and with or without a pending interruption.
struct Reason {
    ec_mode: bool,
    pending: bool,
    bit: u8,
    to_one: bool,
}

pub fn turn_over(guest: &mut Guest) {
    guest.control_register_6 ^= EXPANDED_ON;
}

/// One bit of the mask ends the attempt; the others are such that it would complete.
pub fn damage(draft: &mut Draft) {
    let Some(instruction) = Instruction::of_first_halfword(draft.first_halfword) else {
        return;
    };
    let Some(reason) = draw_reason(&mut draft.random, instruction) else {
        return;
    };
    let (Some(micvpsw), Some(virtual_psw)) = (draft.find(&[Role::Micvpsw]), draft.find(&[Role::VirtualPsw]))
    else {
        return;
    };
    let with_bit = |byte: u8, bit: u8, one: bool| if one { byte | bit } else { byte & !bit };
    let mut turn = |address: u32, bit: u8, one: bool| {
        let byte = with_bit(draft.image.byte(address), bit, one);
        draft.image.put(address, &[byte]);
        byte
    };
    turn(micvpsw.address, 0x80, reason.pending);
    turn(add(virtual_psw.address, 1), 0x08, reason.ec_mode);
    let old = turn(virtual_psw.address, reason.bit, !reason.to_one);
    let others = completing_value(draft, instruction, (old, reason.ec_mode), reason.pending);
    if let Some(operand) = draft.find(&[Role::Operand]) {
        put_value(draft, instruction, operand.address, with_bit(others, reason.bit, reason.to_one));
    }
}

/// For SSM, in EC mode: bit 1 or 5 changed; new bit 0, 2, 3 or 4 one; bit 6 or 7 to one. In BC mode any to one.
fn draw_reason(random: &mut Random, instruction: Instruction) -> Option<Reason> {
    let any = random.percent(50);
    let any_bit = 0x80 >> random.below(8);
    let per_or_dat = random.pick(&[0x40, 0x04]);
    let (ec_mode, pending, bit, to_one) = match (instruction, random.below(9)) {
        (Instruction::SetSystemMask, 0..=1) => (true, any, per_or_dat, random.percent(50)),
        (Instruction::SetSystemMask, 2..=3) => (true, any, random.pick(&[0x80, 0x20, 0x10, 0x08]), true),
        (Instruction::SetSystemMask, 4..=5) => (true, true, random.pick(&[0x02, 0x01]), true),
        (Instruction::SetSystemMask, _) => (false, true, any_bit, true),
        (Instruction::StoreThenAnd, _) => (true, any, per_or_dat, false),
        (Instruction::StoreThenOr, 0..=3) => (true, any, 0x80 >> random.below(6), true),
        (Instruction::StoreThenOr, 4..=5) => (true, true, any_bit, true),
        (Instruction::StoreThenOr, _) => (false, true, any_bit, true),
        _ => return None,
    };
    Some(Reason { ec_mode, pending, bit, to_one })
}
