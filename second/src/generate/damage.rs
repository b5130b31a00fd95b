//! Damage near every edge: sizes, PSW, registers. Fields in storage are in `damage_fields`, those of LRA alone in
//! `damage_lra`.

use super::damage_fields::damage_field;
use super::damage_lra;
use super::draft::Draft;
use super::expanded;
use super::item::Role;
use super::low_address;
use super::sizes::MOST_KEYS;
use crate::address::{add, subtract, ADDRESS_MASK};

/// Share of LRA's damages that are to what it alone has, in percent.
const OF_LRA_ALONE: u32 = 55;

/// One damage, chosen at random. Some damages leave a call complete.
pub fn damage(draft: &mut Draft) {
    if draft.first_halfword >> 8 == 0xB1 && draft.random.percent(OF_LRA_ALONE) {
        return damage_lra::damage(draft);
    }
    match draft.random.below(100) {
        0..=2 => storage_size(draft),
        3..=4 => key_count(draft),
        5..=6 => draft.guest.psw_32_63 |= 1,
        7..=9 => operation_code_and_more(draft),
        10..=12 => psw_bits(draft),
        13..=16 => control_register_6_bits(draft),
        17..=22 => move_micblok(draft),
        23..=27 => draft.guest.control_register_0 ^= 1 << (19 + draft.random.below(5)),
        28..=33 => control_register_1(draft),
        34..=36 => mask_values(draft),
        37..=43 => expanded::damage(draft),
        44..=48 => keys(draft),
        49..=54 => operand_address(draft),
        55..=57 => instruction_address(draft),
        58..=60 => registers(draft),
        61..=63 => smaller_storage(draft),
        64..=74 => low_address::damage(draft),
        _ => damage_field(draft),
    }
}

/// An address near the top of storage, near 2^24, near 0, near a block boundary, or anywhere.
pub fn edge_address(draft: &mut Draft) -> u32 {
    let size = draft.size();
    let near = draft.random.below(72);
    let address = match draft.random.below(10) {
        0..=1 => size,
        2..=4 => size.wrapping_sub(near),
        5 => size.wrapping_add(near),
        6 => 0u32.wrapping_sub(near),
        7 => near,
        8 => (draft.random.below(size / 2048 + 1) * 2048).wrapping_sub(draft.random.below(8)),
        _ => draft.random.word(),
    };
    address & ADDRESS_MASK
}

fn storage_size(draft: &mut Draft) {
    let size = draft.image.storage_size;
    draft.image.storage_size = match draft.random.below(8) {
        0 => 0,
        1 => size + 1,
        2 => size.saturating_sub(1),
        3 => size + 1024,
        4 => 1024,
        5 if size >= 0x10_0000 && draft.largest > 0x100_0000 => 0x100_0000 + 2048,
        6 => size + 2048,
        _ => 2047,
    };
    draft.image.storage_size = draft.image.storage_size.min(draft.largest);
    if draft.random.percent(50) {
        draft.image.key_count = draft.image.storage_size / 2048;
    }
}

fn key_count(draft: &mut Draft) {
    let count = draft.image.key_count;
    let other = draft.random.pick(&[0, count + 1, count.saturating_sub(1), count / 2, count * 2]);
    draft.image.key_count = other.min(MOST_KEYS);
}

/// A proper size that leaves out the topmost blocks.
fn smaller_storage(draft: &mut Draft) {
    let place = draft.places.iter().map(|place| place.address).max().unwrap_or(0);
    let blocks = (place / 2048).max(1) as usize;
    draft.image.storage_size = blocks * 2048;
    draft.image.key_count = blocks;
}

/// Another operation code, in part together with what is tested before it.
fn operation_code_and_more(draft: &mut Draft) {
    operation_code(draft);
    match draft.random.below(10) {
        0 => draft.guest.psw_32_63 |= 1,
        1 => key_count(draft),
        2 => storage_size(draft),
        3 => draft.guest.psw_0_31 &= !0x0008_0000,
        _ => {}
    }
}

/// For B2 in part another second byte.
fn operation_code(draft: &mut Draft) {
    if draft.first_halfword >> 8 == 0xB2 && draft.random.percent(60) {
        draft.first_halfword ^= 1 << draft.random.below(8);
        return;
    }
    let other = if draft.random.percent(50) {
        u16::from(draft.random.byte())
    } else {
        draft.random.pick(&[0x80, 0xB6, 0xAC, 0xAD, 0x08, 0x09, 0xB2, 0xB1, 0x0A, 0xAE, 0xB7, 0xB0, 0x82])
    };
    draft.first_halfword = other << 8 | draft.first_halfword & 0xFF;
}

/// EC, problem, DAT or key bits.
fn psw_bits(draft: &mut Draft) {
    let bit = draft.random.pick(&[5, 8, 9, 10, 11, 12, 12, 15, 15]);
    draft.guest.psw_0_31 ^= 0x8000_0000 >> bit;
}

fn control_register_6_bits(draft: &mut Draft) {
    draft.guest.control_register_6 ^= 0x8000_0000 >> draft.random.below(5);
}

/// The MICBLOK at an edge; its words go along half of the time.
fn move_micblok(draft: &mut Draft) {
    let old = draft.guest.control_register_6 & 0x00FF_FFF8;
    let size = draft.size();
    let new = if draft.random.percent(40) { size.wrapping_sub(8) } else { edge_address(draft) } & 0x00FF_FFF8;
    if draft.random.percent(75) {
        for offset in [0, 4, 8] {
            let word = draft.image.word(add(old, offset));
            if add(new, offset) < size {
                draft.image.put_word(add(new, offset), word);
            }
        }
    }
    draft.guest.control_register_6 = draft.guest.control_register_6 & 0xFF00_0007 | new;
}

/// Segment-table length or origin.
fn control_register_1(draft: &mut Draft) {
    let word = draft.guest.control_register_1;
    let second_halfword_bits_8_11 = add(draft.guest.instruction_address(), 2) >> 20;
    draft.guest.control_register_1 = match draft.random.below(6) {
        0 => word & ADDRESS_MASK,
        4..=5 => (word & ADDRESS_MASK) | second_halfword_bits_8_11 << 24,
        1 => (word & ADDRESS_MASK) | (word >> 24).saturating_sub(1) << 24,
        2 => word.wrapping_add(0x40),
        _ => word & 0xFF00_0000 | edge_address(draft),
    };
}

/// Another immediate, operand byte, virtual PSW byte or pending bit.
fn mask_values(draft: &mut Draft) {
    let value = draft.random.byte();
    match draft.random.below(4) {
        0 => draft.first_halfword = draft.first_halfword & 0xFF00 | u16::from(value),
        1 => {
            if let Some(place) = draft.find(&[Role::Operand]) {
                draft.image.put(place.address, &[value]);
            }
        }
        2 => {
            if let Some(place) = draft.find(&[Role::VirtualPsw]) {
                let address = add(place.address, draft.random.below(2));
                draft.image.put(address, &[value]);
            }
        }
        _ => {
            if let Some(place) = draft.find(&[Role::Micvpsw]) {
                let byte = draft.image.byte(place.address);
                draft.image.put(place.address, &[byte ^ 0x80]);
            }
        }
    }
}

/// A key that does not match, of a block that is accessed.
fn keys(draft: &mut Draft) {
    let key = draft.random.byte() | draft.random.pick(&[0x08, 0x08, 0x00]);
    if draft.random.percent(70) && draft.guest.psw_key() == 0 {
        draft.guest.psw_0_31 |= (1 + draft.random.below(15)) << 20;
    }
    if let Some(place) = draft.find(&[Role::Operand, Role::SecondHalfword]) {
        draft.image.put_key(place.address / 2048, key);
    }
}

/// The operand elsewhere: base register or displacement changed, or an edge address as base.
fn operand_address(draft: &mut Draft) {
    let Some(place) = draft.find(&[Role::SecondHalfword]) else {
        return registers(draft);
    };
    let base = usize::from(draft.image.byte(place.address) >> 4);
    let register = draft.guest.general_registers[base];
    let displacement = draft.image.word(place.address) >> 16 & 0xFFF;
    let moved = match draft.random.below(5) {
        // Anywhere, in part with the longest segment table.
        4 => {
            draft.guest.control_register_1 |= draft.random.pick(&[0, 0xFF00_0000]);
            subtract(draft.random.word() & 0x00FF_FFFC, displacement)
        }
        0 => add(register, draft.random.pick(&[1, 2, 3, 4, 0x800, 0x1000])),
        1 => subtract(register, draft.random.pick(&[1, 2, 3, 4, 0x800, 0x1000])),
        _ => subtract(edge_address(draft) & !3, displacement),
    };
    draft.guest.general_registers[base] = register & 0xFF00_0000 | moved;
}

fn instruction_address(draft: &mut Draft) {
    let address = match draft.random.below(3) {
        0 => draft.size().wrapping_sub(2),
        1 => edge_address(draft),
        _ => draft.guest.psw_32_63.wrapping_add(draft.random.pick(&[2, 0x800, 0x1_0000, 0x10_0000])),
    };
    draft.guest.psw_32_63 = draft.guest.psw_32_63 & 0xFF00_0000 | address & 0x00FF_FFFE;
}

/// The registers that the first halfword names: a low bit, an index bit, or all.
fn registers(draft: &mut Draft) {
    let number = usize::from(draft.first_halfword & 15);
    let bit = draft.random.below(24);
    draft.guest.general_registers[number] ^= 1 << bit;
}
