//! One attempt: the tests in the order 10, 11, 12, 13, 9, then the steps.

use crate::ending::Ending;
use crate::guest::Guest;
use crate::insert_storage_key::insert_storage_key;
use crate::load_real_address::load_real_address;
use crate::machine::Machine;
use crate::references::{Reference, References};
use crate::reset_reference_bit::reset_reference_bit;
use crate::set_storage_key::set_storage_key;
use crate::set_system_mask::set_system_mask;
use crate::store_control::store_control;
use crate::store_then_mask::{store_then_mask, Connective};

/// RRB is the one code of B2 that is assisted.
const RESET_REFERENCE_BIT: u16 = 0xB213;

/// The five instructions of document 01, the two of document 02, R-4, and that of R-9.
#[derive(Clone, Copy, Debug, PartialEq, Eq, PartialOrd, Ord)]
pub enum Instruction {
    SetSystemMask,
    StoreControl,
    StoreThenAnd,
    StoreThenOr,
    SetStorageKey,
    InsertStorageKey,
    ResetReferenceBit,
    LoadRealAddress,
}

impl Instruction {
    pub const ALL: [Instruction; 8] = [
        Instruction::SetSystemMask,
        Instruction::StoreControl,
        Instruction::StoreThenAnd,
        Instruction::StoreThenOr,
        Instruction::SetStorageKey,
        Instruction::InsertStorageKey,
        Instruction::ResetReferenceBit,
        Instruction::LoadRealAddress,
    ];

    /// The instruction that the first halfword's operation code names: its first byte, and for B2 the second too.
    #[inline]
    pub fn of_first_halfword(first_halfword: u16) -> Option<Instruction> {
        match first_halfword >> 8 {
            0x80 => Some(Instruction::SetSystemMask),
            0xB6 => Some(Instruction::StoreControl),
            0xAC => Some(Instruction::StoreThenAnd),
            0xAD => Some(Instruction::StoreThenOr),
            0x08 => Some(Instruction::SetStorageKey),
            0x09 => Some(Instruction::InsertStorageKey),
            0xB2 if first_halfword == RESET_REFERENCE_BIT => Some(Instruction::ResetReferenceBit),
            0xB1 => Some(Instruction::LoadRealAddress),
            _ => None,
        }
    }

    /// The first byte of the operation code; RRB has a second one.
    pub fn operation_code(self) -> u8 {
        match self {
            Instruction::SetSystemMask => 0x80,
            Instruction::StoreControl => 0xB6,
            Instruction::StoreThenAnd => 0xAC,
            Instruction::StoreThenOr => 0xAD,
            Instruction::SetStorageKey => 0x08,
            Instruction::InsertStorageKey => 0x09,
            Instruction::ResetReferenceBit => 0xB2,
            Instruction::LoadRealAddress => 0xB1,
        }
    }

    /// The first halfword of this instruction; its second byte is the one given, but for RRB, which has its own.
    pub fn first_halfword(self, second_byte: u8) -> u16 {
        match self {
            Instruction::ResetReferenceBit => RESET_REFERENCE_BIT,
            _ => u16::from_be_bytes([self.operation_code(), second_byte]),
        }
    }

    /// Length in bytes: 2 (SSK, ISK) or 4.
    #[inline]
    pub fn length(self) -> u32 {
        match self {
            Instruction::SetStorageKey | Instruction::InsertStorageKey => 2,
            _ => 4,
        }
    }

    pub fn mnemonic(self) -> &'static str {
        match self {
            Instruction::SetSystemMask => "SSM",
            Instruction::StoreControl => "STCTL",
            Instruction::StoreThenAnd => "STNSM",
            Instruction::StoreThenOr => "STOSM",
            Instruction::SetStorageKey => "SSK",
            Instruction::InsertStorageKey => "ISK",
            Instruction::ResetReferenceBit => "RRB",
            Instruction::LoadRealAddress => "LRA",
        }
    }
}

/// What an attempt gives back.
#[derive(Clone, Debug, PartialEq, Eq)]
pub struct Answer {
    pub ending: Ending,
    /// The list of references; its length is the count.
    pub references: Vec<Reference>,
    /// The record handed back.
    pub guest: Guest,
    /// Step in which the attempt ended, zero before the first. For reports; document 01 does not carry it.
    pub at_step: u8,
    /// Step of the walk in which an access exception was found, else zero. For reports; see `Machine`.
    pub at_walk_step: u8,
}

impl Answer {
    /// The count of references.
    pub fn count(&self) -> usize {
        self.references.len()
    }

    /// The same without the list.
    pub fn counted(&self) -> CountedAnswer {
        CountedAnswer { ending: self.ending, count: self.count() as u32, guest: self.guest }
    }
}

/// The same without the list.
#[derive(Clone, Copy, Debug, PartialEq, Eq)]
pub struct CountedAnswer {
    pub ending: Ending,
    /// The count of references.
    pub count: u32,
    /// The record handed back.
    pub guest: Guest,
}

/// One attempt on lent storage and keys; `expanded` says whether the expanded assist is installed. Any input gets a
/// numbered ending. Accesses are recorded in the keys, and what was recorded before an ending stays.
pub fn attempt(
    storage: &mut [u8],
    keys: &mut [u8],
    guest: &Guest,
    first_halfword: u16,
    expanded: bool,
) -> Answer {
    let mut machine = Machine::new(storage, keys, Vec::new());
    let (ending, guest) = run(&mut machine, guest, first_halfword, expanded);
    Answer {
        ending,
        at_step: machine.step,
        at_walk_step: machine.walk_step,
        references: machine.references,
        guest,
    }
}

/// The same attempt, by the same rules, with the references counted only. Nothing is allocated.
pub fn attempt_counted(
    storage: &mut [u8],
    keys: &mut [u8],
    guest: &Guest,
    first_halfword: u16,
    expanded: bool,
) -> CountedAnswer {
    let mut machine = Machine::new(storage, keys, 0);
    let (ending, guest) = run(&mut machine, guest, first_halfword, expanded);
    CountedAnswer { ending, count: machine.references, guest }
}

/// Gives the ending and the record to hand back: as it was given, but for completion.
#[inline]
fn run(
    machine: &mut Machine<impl References>,
    guest: &Guest,
    first_halfword: u16,
    expanded: bool,
) -> (Ending, Guest) {
    let performed = check_call(machine, guest, first_halfword).and_then(|instruction| {
        let record = perform(machine, guest, instruction, first_halfword, expanded)?;
        Ok(record.moved_on(instruction.length()))
    });
    match performed {
        Ok(record) => (Ending::Completed, record),
        Err(ending) => (ending, *guest),
    }
}

/// Order: 10, 11, 12, 13, 9.
#[inline]
fn check_call(
    machine: &Machine<impl References>,
    guest: &Guest,
    first_halfword: u16,
) -> Result<Instruction, Ending> {
    let (storage, keys) = machine.sizes();
    if !storage.is_multiple_of(2_048) || !(2_048..=16_777_216).contains(&storage) {
        return Err(Ending::StorageSize);
    }
    if keys != storage / 2_048 {
        return Err(Ending::KeyCount);
    }
    if guest.instruction_address() % 2 == 1 {
        return Err(Ending::OddInstructionAddress);
    }
    let Some(instruction) = Instruction::of_first_halfword(first_halfword) else {
        return Err(Ending::OperationCode);
    };
    if !guest.ec_mode() || !guest.problem_state() {
        return Err(Ending::PswBit12Or15Zero);
    }
    Ok(instruction)
}

/// Gives the record on completion, not yet moved on: ISK sets a register, RRB the condition code, LRA both, the others
/// nothing.
#[inline]
fn perform(
    machine: &mut Machine<impl References>,
    guest: &Guest,
    instruction: Instruction,
    first_halfword: u16,
    expanded: bool,
) -> Result<Guest, Ending> {
    let immediate = (first_halfword & 0xFF) as u8;
    match instruction {
        Instruction::SetSystemMask => set_system_mask(machine, guest, expanded)?,
        Instruction::StoreControl => store_control(machine, guest, first_halfword)?,
        Instruction::StoreThenAnd => store_then_mask(machine, guest, Connective::And, immediate, expanded)?,
        Instruction::StoreThenOr => store_then_mask(machine, guest, Connective::Or, immediate, expanded)?,
        Instruction::SetStorageKey => set_storage_key(machine, guest, first_halfword)?,
        Instruction::InsertStorageKey => return insert_storage_key(machine, guest, first_halfword),
        Instruction::ResetReferenceBit => return reset_reference_bit(machine, guest),
        Instruction::LoadRealAddress => return load_real_address(machine, guest, first_halfword),
    }
    Ok(*guest)
}

#[cfg(test)]
mod tests {
    use super::*;

    /// 09, and B2 with 13 alone; R-9: B1.
    #[test]
    fn every_first_halfword_both_ways() {
        for first_halfword in 0..=u16::MAX {
            let named = Instruction::of_first_halfword(first_halfword);
            let second_byte = first_halfword as u8;
            let same = |one: &Instruction| one.first_halfword(second_byte) == first_halfword;
            assert_eq!(named, Instruction::ALL.into_iter().find(same));
            let by_hand = match first_halfword >> 8 {
                0x08 | 0x09 | 0x80 | 0xAC | 0xAD | 0xB1 | 0xB6 => true,
                0xB2 => second_byte == 0x13,
                _ => false,
            };
            assert_eq!(named.is_some(), by_hand);
        }
    }
}
