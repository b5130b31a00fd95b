//! The trail, with expectations worked out by hand from document 02, R-1.

mod big;
mod fit;
mod record;
mod refusals;
mod runs;

use second::trail::{Entry, Written};
use second::Guest;

/// What the buffers hold before a start: no zero, so that every byte written can be seen.
const UNUSED: u8 = 0xEE;

/// An entry in which no two fields are alike.
fn entry() -> Entry {
    Entry {
        guest_number: 0x0102_0304,
        first_halfword: 0xB6E1,
        expanded_installed: true,
        ending: 3,
        code_or_step: 0x0A0B,
        count: 0x0C0D,
        next_address: 0x0011_2233,
        translation_address: 0x0044_5566,
        before: Guest {
            psw_0_31: 0xF0F1_F2F3,
            psw_32_63: 0xF4F5_F6F7,
            general_registers: std::array::from_fn(|number| 0xA0B0_C000 + number as u32),
            control_register_0: 0xD0D1_D2D3,
            control_register_1: 0xD4D5_D6D7,
            control_register_6: 0xD8D9_DADB,
        },
    }
}

fn went_well(held: u32) -> Written {
    Written { refusal: 0, held }
}

fn refused(refusal: u8, held: u32) -> Written {
    Written { refusal, held }
}

/// Words as big-endian bytes.
fn bytes(words: &[u32]) -> Vec<u8> {
    words.iter().flat_map(|word| word.to_be_bytes()).collect()
}

/// The four numbers of a trailer at a place in the buffer.
fn trailer_at(buffer: &[u8], place: usize) -> [u32; 4] {
    [0, 4, 8, 12].map(|offset| word_at(buffer, place + offset))
}

fn word_at(buffer: &[u8], place: usize) -> u32 {
    buffer[place..place + 4].iter().fold(0, |word, &byte| word << 8 | u32::from(byte))
}
