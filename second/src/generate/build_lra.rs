//! LRA calls built so that they complete, with each condition code.

use super::build::{place_ecblok, put_instruction};
use super::draft::Draft;
use super::item::Role;
use super::random::Random;
use super::tables::{Mapping, Shifts};
use crate::address::{add, subtract, ADDRESS_MASK};
use crate::attempt::Instruction;

/// Share of the virtual entries with a table origin near 2^24, so that their address goes round, in percent; not where
/// the index is too small for it.
const ROUND: u32 = 15;

/// How the instruction completes.
#[derive(Clone, Copy, Debug, PartialEq, Eq)]
enum Load {
    /// Condition code 0.
    RealAddress,
    /// 1.
    SegmentInvalid,
    /// 2.
    PageInvalid,
    /// 3, with 64K segments only.
    SegmentTableTooShort,
    /// 3.
    PageTableTooShort,
}

/// What is loaded, by which tables of the guest's.
#[derive(Clone, Copy)]
struct Operand {
    load: Load,
    shifts: Shifts,
    address: u32,
}

/// An entry of a virtual table: its real and its virtual address, and the virtual address of its table.
#[derive(Clone, Copy)]
struct VirtualEntry {
    real: u32,
    address: u32,
    origin: u32,
}

/// Everything that is fetched is only read. All tables are built, also those that this completion does not come to.
pub fn load_real_address(draft: &mut Draft, micblok: u32) {
    let (halfword, dat) = put_instruction(draft);
    if let Some(mapping) = &dat {
        mapping.put_tables(draft);
    }
    let operand = Operand::draw(&mut draft.random);
    put_operand_address(draft, halfword, operand.address);
    let mut real_tables = Mapping::new(&mut draft.random);
    let Operand { shifts, address, .. } = operand;
    let segment_entry = place_entry(draft, &mut real_tables, 4, 64, shifts.segment_index(address));
    let page_entry = place_entry(draft, &mut real_tables, 2, 8, shifts.page_index(address));
    put_real_tables(draft, micblok, &real_tables, [segment_entry, page_entry]);
    put_registers(draft, micblok, operand, segment_entry.origin);
    draft.note(Role::VirtualSegmentEntry, segment_entry.real);
    draft.note(Role::VirtualPageEntry, page_entry.real);
    let word = operand.segment_word(&mut draft.random, page_entry.origin);
    draft.image.put_word(segment_entry.real, word);
    let halfword = operand.page_halfword(&mut draft.random);
    draft.image.put_halfword(page_entry.real, halfword);
}

impl Operand {
    fn draw(random: &mut Random) -> Operand {
        let load = match random.below(100) {
            0..=33 => Load::RealAddress,
            34..=51 => Load::SegmentInvalid,
            52..=71 => Load::PageInvalid,
            72..=83 => Load::SegmentTableTooShort,
            _ => Load::PageTableTooShort,
        };
        let mut shifts = Shifts::draw(random);
        if load == Load::SegmentTableTooShort {
            shifts.segment = 16;
        }
        let low_or_any = random.pick(&[0x0000_0FFF, ADDRESS_MASK, ADDRESS_MASK, ADDRESS_MASK, ADDRESS_MASK]);
        let mut address = random.word() & low_or_any;
        // Four bits that a length can be less than.
        let four_bits = match load {
            Load::SegmentTableTooShort => Some(20),
            Load::PageTableTooShort => Some(shifts.segment - 4),
            _ => None,
        };
        if let Some(shift) = four_bits.filter(|shift| address >> shift & 15 == 0) {
            address |= 1 << (shift + random.below(4));
        }
        Operand { load, shifts, address }
    }

    /// Bits 0-7 of virtual control register 1.
    fn segment_table_length(self, random: &mut Random) -> u32 {
        let bits_8_11 = self.address >> 20;
        match self.load {
            Load::SegmentTableTooShort => less_than(random, bits_8_11),
            _ if self.shifts.segment == 20 => random.below(256),
            _ => bits_8_11 + random.pick(&[0, 0, 1, 200]),
        }
    }

    fn segment_word(self, random: &mut Random, page_table: u32) -> u32 {
        let leftmost_four = self.shifts.leftmost_four(self.address);
        let length = match self.load {
            Load::PageTableTooShort => less_than(random, leftmost_four),
            _ => (leftmost_four + random.pick(&[0, 0, 1, 15])).min(15),
        };
        let word = length << 28 | page_table | random.pick(&[0, 2, 4, 6]);
        match self.load {
            Load::SegmentInvalid => random.pick(&[word, !word]) | 1,
            _ => word,
        }
    }

    /// Any frame, in storage or not.
    fn page_halfword(self, random: &mut Random) -> u16 {
        let (invalid, wrong_format) =
            if self.shifts.page == 12 { (0x0008, 0x0006) } else { (0x0004, 0x0002) };
        let any = random.word() as u16 & !invalid;
        match self.load {
            Load::PageInvalid => any | invalid,
            _ => any & !wrong_format,
        }
    }
}

/// One less, or any that is less; the limit is not zero.
fn less_than(random: &mut Random, limit: u32) -> u32 {
    let any = random.below(limit);
    random.pick(&[limit - 1, any])
}

/// R1, index, base and second halfword. In part index or base is 0, the two are the same register, or R1 is one of
/// them.
fn put_operand_address(draft: &mut Draft, halfword: u32, address: u32) {
    let random = &mut draft.random;
    let any_but_0 = 1 + random.below(15);
    let index = if random.percent(35) { 0 } else { 1 + random.below(15) };
    let base = match random.below(10) {
        0..=2 if index != 0 => 0,
        0..=5 if address < 0x1000 => 0,
        6..=7 if index != 0 => index,
        _ => any_but_0,
    };
    let any = random.below(16);
    let r1 = random.pick(&[any, any, any, base, index]);
    let displacement = match (base, index) {
        (0, 0) => address,
        // Twice the register is even.
        _ if base == index => random.below(0x800) << 1 | address & 1,
        _ => random.below(0x1000),
    };
    let sum = subtract(address, displacement);
    let bit_8 = random.below(2) << 23;
    let (number, value) = match (base, index) {
        (0, _) => (index, sum),
        (_, 0) => (base, sum),
        _ if base == index => (base, sum >> 1 | bit_8),
        _ => (base, subtract(sum, draft.guest.general_registers[index as usize])),
    };
    let register = &mut draft.guest.general_registers[number as usize];
    *register = *register & !ADDRESS_MASK | value;
    draft.first_halfword = Instruction::LoadRealAddress.first_halfword((r1 << 4 | index) as u8);
    draft.image.put_halfword(halfword, (base << 12 | displacement) as u16);
}

/// A free place for the entry with this index of a virtual table whose entries are so wide; the real tables get its
/// page.
fn place_entry(
    draft: &mut Draft,
    real_tables: &mut Mapping,
    width: u32,
    boundary: u32,
    index: u32,
) -> VirtualEntry {
    let offset = width * index;
    let round = if draft.random.percent(ROUND) {
        place_round(draft, real_tables, width, boundary, offset)
    } else {
        None
    };
    let (real, address) = round.unwrap_or_else(|| {
        let real = draft.allocate(width, boundary, offset % boundary);
        (real, real_tables.logical_of_real(draft, real))
    });
    VirtualEntry { real, address, origin: subtract(address, offset) }
}

/// Real and virtual address of an entry at a lower address than its offset in the table.
fn place_round(
    draft: &mut Draft,
    real_tables: &mut Mapping,
    width: u32,
    boundary: u32,
    offset: u32,
) -> Option<(u32, u32)> {
    let trials = if offset < boundary { 0 } else { 20 };
    for _ in 0..trials {
        let address = offset - boundary * (1 + draft.random.below(offset / boundary));
        let frames = draft.size().div_ceil(real_tables.page_size());
        let frame = real_tables.frame_of(0).unwrap_or_else(|| draft.random.below(frames));
        let real = frame << real_tables.shifts.page | address;
        if draft.free(real, width) && real_tables.add_page(0, frame) {
            draft.take(real, width);
            return Some((real, address));
        }
    }
    None
}

/// MICRSEG, and the real tables for the pages of both entries.
fn put_real_tables(draft: &mut Draft, micblok: u32, real_tables: &Mapping, walks: [VirtualEntry; 2]) {
    let tables = real_tables.put_entries(draft);
    let Shifts { page, segment } = real_tables.shifts;
    let length = if segment == 20 { draft.random.below(256) } else { tables.length };
    let unused_bits = draft.random.below(16) << 2;
    let bits_30_31 = u32::from(page == 11) << 1 | u32::from(segment == 20);
    draft.image.put_word(micblok, length << 24 | tables.origin | unused_bits | bits_30_31);
    draft.note(Role::Micrseg, micblok);
    let roles = [
        (Role::RealSegmentEntry, Role::RealPageEntry),
        (Role::SecondRealSegmentEntry, Role::SecondRealPageEntry),
    ];
    for (entry, (segment_role, page_role)) in walks.into_iter().zip(roles) {
        if let Some(entries) = tables.entries_of(real_tables, entry.address) {
            draft.note(segment_role, entries.segment_entry);
            draft.note(page_role, entries.page_entry);
        }
    }
}

/// MICCREG, virtual control registers 0 and 1; bits that are not used are random.
fn put_registers(draft: &mut Draft, micblok: u32, operand: Operand, segment_table: u32) {
    let ecblok = place_ecblok(draft, Instruction::LoadRealAddress);
    let high = draft.random.word() & !ADDRESS_MASK;
    draft.image.put_word(add(micblok, 4), high | ecblok);
    draft.note(Role::Miccreg, add(micblok, 4));
    let register_0 = draft.random.word() & !0x00F8_0000 | operand.shifts.control_bits() << 19;
    let length = operand.segment_table_length(&mut draft.random);
    let register_1 = length << 24 | segment_table | draft.random.below(64);
    for (offset, register) in [(0, register_0), (4, register_1)] {
        draft.image.put_word(add(ecblok, offset), register);
        draft.note(Role::VirtualRegister, add(ecblok, offset));
    }
}
