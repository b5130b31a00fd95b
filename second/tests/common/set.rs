//! What an instruction sets in the record on completion, besides moving the instruction address on (document 02, R-4,
//!
#![allow(dead_code)]

use second::Guest;

#[derive(Clone, Copy, Debug, PartialEq, Eq)]
pub enum Set {
    Nothing,
    /// ISK: general register R1 and its whole contents.
    Register(usize, u32),
    /// RRB: real PSW bits 18-19.
    ConditionCode(u32),
    /// LRA: general register R1 with its whole contents, and real PSW bits 18-19.
    RegisterAndCode(usize, u32, u32),
}

impl Set {
    /// The record with this set, and nothing else.
    pub fn in_record(self, mut record: Guest) -> Guest {
        match self {
            Set::Nothing => {}
            Set::Register(number, contents) => record.general_registers[number] = contents,
            Set::ConditionCode(code) => record.psw_0_31 = record.psw_0_31 & 0xFFFF_CFFF | (code * 0x1000),
            Set::RegisterAndCode(number, contents, code) => {
                record = Set::Register(number, contents).in_record(record);
                record = Set::ConditionCode(code).in_record(record);
            }
        }
        record
    }
}

/// The address moves on by 2 for 08 and 09, by 4 for the others.
pub fn length(first_halfword: u16) -> u32 {
    match first_halfword >> 8 {
        0x08 | 0x09 => 2,
        _ => 4,
    }
}
