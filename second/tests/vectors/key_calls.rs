//! What the calls of ISK and RRB in a set are (document 02, R-4): worked out here from the call as the file gives it
//! and the list of references.

use std::collections::BTreeMap;

use second::{Answer, Reference, ReferenceKind};

use crate::reader::ReadCall;

/// How often something was found, by name.
#[derive(Default)]
pub struct KeyTally(BTreeMap<String, usize>);

fn byte(call: &ReadCall, address: u32) -> u8 {
    call.storage[address as usize]
}

fn valid(answer: &Answer) -> &'static str {
    let key = |entry: &Reference| entry.kind == ReferenceKind::KeyConsulted;
    // ISK consults no other key, RRB also that of its second halfword.
    let halfword = |entry: &Reference| entry.kind == ReferenceKind::InstructionHalfword;
    let after = answer.references.iter().position(halfword).map_or(0, |place| place + 1);
    if answer.references[after..].iter().any(key) {
        "valid"
    } else {
        "invalid"
    }
}

/// Real PSW bits 5 and, in control register 0, 8-12.
pub fn dat_format(call: &ReadCall) -> &'static str {
    let guest = &call.request.guest;
    match (guest.psw_0_31 & 0x0400_0000 != 0, guest.control_register_0 >> 19 & 31) {
        (false, _) => "DAT off",
        (true, 0b01000) => "2K, 64K",
        (true, 0b01010) => "2K, 1M",
        (true, 0b10000) => "4K, 64K",
        (true, 0b10010) => "4K, 1M",
        (true, _) => "wrong format",
    }
}

impl KeyTally {
    fn found(&mut self, name: impl Into<String>) {
        *self.0.entry(name.into()).or_default() += 1;
    }

    pub fn times(&self, name: &str) -> usize {
        self.0.get(name).copied().unwrap_or(0)
    }

    pub fn add(&mut self, call: &ReadCall, answer: &Answer) {
        match call.request.first_halfword {
            0xB213 => self.add_reset_reference_bit(call, answer),
            first_halfword if first_halfword >> 8 == 0x09 => self.add_insert_storage_key(call, answer),
            first_halfword if first_halfword >> 8 == 0xB2 => {
                self.found(format!("B2{:02X}: {}", first_halfword & 0xFF, answer.ending.number()));
            }
            _ => {}
        }
    }

    /// The fields are the last seven or eight entries of a call that completed.
    fn add_insert_storage_key(&mut self, call: &ReadCall, answer: &Answer) {
        let (r1, r2) = (call.request.first_halfword >> 4 & 15, call.request.first_halfword & 15);
        if answer.ending.number() != 0 {
            return;
        }
        self.found(format!("R1 {r1}"));
        self.found(format!("R2 {r2}"));
        if r1 == r2 {
            self.found("R1 is R2");
            self.found(format!("R1 and R2 {r1}"));
        }
        let virtual_psw = answer.references.last().expect("its fetch comes last");
        let mode = if byte(call, virtual_psw.bytes[1]) & 0x08 != 0 { "EC" } else { "BC" };
        let bit_20 = call.request.guest.general_registers[usize::from(r2)] >> 11 & 1;
        self.found(format!("ISK, {mode}, {}, bit 20 {bit_20}", valid(answer)));
        self.add_read_whole(call, answer, mode);
    }

    /// The page's block has a fetch of its own before or after its key is read, and had its reference bit zero.
    fn add_read_whole(&mut self, call: &ReadCall, answer: &Answer, mode: &str) {
        let entries = &answer.references;
        let Some(place) = entries.iter().position(|entry| entry.kind == ReferenceKind::KeyConsulted) else {
            return;
        };
        let number = entries[place].key.expect("a key entry names a key");
        let touches = |part: &[Reference]| {
            part.iter().any(|entry| entry.bytes.iter().any(|byte| byte / 2_048 == number))
        };
        if call.keys[number as usize] & 0x04 == 0 {
            match (touches(&entries[..place]), touches(&entries[place..])) {
                (true, _) => self.found(format!("ISK, {mode}, key read after a fetch in its block")),
                (false, true) => self.found(format!("ISK, {mode}, key read before a fetch in its block")),
                _ => {}
            }
        }
    }

    fn add_reset_reference_bit(&mut self, call: &ReadCall, answer: &Answer) {
        let ending = (answer.ending.number(), answer.ending.code_or_step());
        let old = call.request.guest.psw_0_31 >> 12 & 3;
        let halfword = |entry: &Reference| entry.kind == ReferenceKind::InstructionHalfword;
        let fetched = answer.references.iter().any(halfword);
        if ending.0 == 1 && !fetched && ending.1 != 2 {
            self.found(format!("RRB, {}, code {}", dat_format(call), ending.1));
        }
        if ending.0 == 0 {
            let new = answer.guest.psw_0_31 >> 12 & 3;
            self.found(format!("RRB, condition code {old} to {new}"));
            let stored = answer.references.last().expect("the store comes last");
            self.found(format!("RRB, {}", valid(answer)));
            self.found(format!("RRB, {}, {}", dat_format(call), valid(answer)));
            let [backup, _, key_1, key_2] = [0, 1, 2, 3].map(|place| byte(call, stored.bytes[place]));
            self.found(format!("RRB, virtual bits {:02b} and {:02b}", key_1 >> 1 & 3, key_2 >> 1 & 3));
            self.found(format!("RRB, backup bits {:04b}", backup & 15));
        }
    }
}
