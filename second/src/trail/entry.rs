//! What a record of the trail says about one call, and its 128 bytes.

use crate::attempt::CountedAnswer;
use crate::call::Request;
use crate::guest::Guest;

pub const RECORD_LENGTH: usize = 128;

/// One call, once made. The sequence number is not known before it is written down.
#[derive(Clone, Copy, Debug, PartialEq, Eq)]
pub struct Entry {
    pub guest_number: u32,
    pub first_halfword: u16,
    pub expanded_installed: bool,
    pub ending: u8,
    /// For ISK, RRB and LRA the place in ending 3. Zero where there is none.
    pub code_or_step: u16,
    pub count: u16,
    /// Instruction address of the record that the call handed back.
    pub next_address: u32,
    /// The logical address that codes 16 and 17 carry, else zero.
    pub translation_address: u32,
    /// The guest's record before the call.
    pub before: Guest,
}

impl Entry {
    /// Document 01's numbers fit their fields: endings go up to 13, codes to 18, steps to 12, counts to 85.
    pub fn new(guest_number: u32, request: &Request, answer: &CountedAnswer) -> Entry {
        Entry {
            guest_number,
            first_halfword: request.first_halfword,
            expanded_installed: request.expanded,
            ending: answer.ending.number() as u8,
            code_or_step: answer.ending.code_or_step() as u16,
            count: answer.count as u16,
            next_address: answer.guest.instruction_address(),
            translation_address: answer.ending.logical_address(),
            before: request.guest,
        }
    }

    /// The record with this sequence number: the fields in R-1's order, then 20 zeros.
    pub fn record(&self, sequence: u32) -> [u8; RECORD_LENGTH] {
        let guest = &self.before;
        let fields: [&[u8]; 11] = [
            &sequence.to_be_bytes(),
            &self.guest_number.to_be_bytes(),
            &self.first_halfword.to_be_bytes(),
            &[u8::from(self.expanded_installed)],
            &[self.ending],
            &self.code_or_step.to_be_bytes(),
            &self.count.to_be_bytes(),
            &self.next_address.to_be_bytes(),
            &self.translation_address.to_be_bytes(),
            &guest.psw_0_31.to_be_bytes(),
            &guest.psw_32_63.to_be_bytes(),
        ];
        let control_registers =
            [guest.control_register_0, guest.control_register_1, guest.control_register_6];
        let registers = guest.general_registers.into_iter().chain(control_registers);
        let bytes = fields.into_iter().flatten().copied().chain(registers.flat_map(u32::to_be_bytes));
        let mut record = [0; RECORD_LENGTH];
        for (place, byte) in record.iter_mut().zip(bytes) {
            *place = byte;
        }
        record
    }
}
