//! Eight calls of two guests on one machine, to be written down in a trail.

mod lines;

use crate::attempt::attempt_counted;
use crate::call::{Request, StorageImage};
use crate::guest::Guest;
use crate::setup::{virtual_register, EXPANDED_ON};
use crate::trail::{start, write, Entry, RECORD_LENGTH, TRAILER_LENGTH};

pub use lines::text;

const STORAGE_SIZE: usize = 0x4000;
const ECBLOK: u32 = 0x500;

/// Length of the trail's buffer: room for five records, and 24 bytes more.
const BUFFER_LENGTH: usize = 680;
/// What the buffers hold before a start.
const UNUSED: u8 = 0xEE;

/// Words of storage besides the virtual control registers; all else is zero.
const WORDS: [(u32, u32); 12] = [
    // MICRSEG, MICCREG, MICVPSW; virtual PSW in EC mode, with system mask 04.
    (0x400, 0x0000_0800),
    (0x404, ECBLOK),
    (0x408, 0x0000_0600),
    (0x600, 0x0408_0000),
    // SSK: entry of segment 2, swap-table address, pages 2 (frame not in storage) and 3.
    (0x808, 0xF000_0C10),
    (0xC0C, 0x0000_0D00),
    (0xC14, 0x0FF0_0010),
    // Instruction, with its second halfword, and operand.
    (0x1000, 0x8000_2010),
    (0x2000, 0x0700_0000),
    // DAT: entry of segment 0, pages 0 and 1, page 2 (invalid).
    (0x3000, 0xF000_3400),
    (0x3400, 0x0000_0010),
    (0x3404, 0x0008_0000),
];

/// A call and the number of its guest.
#[derive(Clone, Copy, Debug)]
pub struct GuestCall {
    pub guest_number: u32,
    pub request: Request,
}

/// Storage and keys before the first call.
pub fn image() -> StorageImage {
    let mut image = StorageImage::new(STORAGE_SIZE);
    for (address, word) in WORDS {
        image.put_word(address, word);
    }
    for number in 0..16 {
        image.put_word(ECBLOK + 4 * number, virtual_register(number));
    }
    image
}

/// The calls in order.
pub fn calls() -> [GuestCall; 8] {
    let dat_on = Guest { psw_0_31: 0x0409_00CD, ..guest() };
    let odd_address = Guest { psw_32_63: 0xAB00_1001, ..guest() };
    let mut page_2 = guest();
    page_2.general_registers[4] = 0x5A02_2000;
    let call = |guest_number, first_halfword, guest| GuestCall {
        guest_number,
        request: Request { guest, first_halfword, expanded: false },
    };
    let mut calls = [
        call(7, 0x8000, guest()),
        call(7, 0xB6E1, guest()),
        call(9, 0xB655, dat_on),
        call(9, 0x8000, guest()),
        call(7, 0x0834, page_2),
        call(7, 0x0834, guest()),
        call(9, 0xAC07, odd_address),
        call(7, 0x0700, guest()),
    ];
    // Ending 2 needs both (document 02, R-3).
    calls[3].request.expanded = true;
    calls[3].request.guest.control_register_6 |= EXPANDED_ON;
    calls
}

/// What is to be written down for each call, when they are made in order on the one machine.
pub fn entries() -> [Entry; 8] {
    let image = image();
    let (mut storage, mut keys) = (image.storage(), image.key_bytes());
    calls().map(|GuestCall { guest_number, request }| {
        let Request { guest, first_halfword, expanded } = request;
        let answer = attempt_counted(&mut storage, &mut keys, &guest, first_halfword, expanded);
        Entry::new(guest_number, &request, &answer)
    })
}

/// The trail of the calls as a file: the bytes of its buffer, cut after the trailer.
pub fn trail_file() -> Vec<u8> {
    let mut buffer = vec![UNUSED; BUFFER_LENGTH];
    let mut held = start(&mut buffer).held;
    for entry in entries() {
        held = write(&mut buffer, held, &entry).held;
    }
    buffer.truncate(RECORD_LENGTH * held as usize + TRAILER_LENGTH);
    buffer
}

/// The record from which those of the calls differ: 4K pages, 64K segments, DAT off.
fn guest() -> Guest {
    let mut general_registers = [0; 16];
    for (number, register) in (0..).zip(&mut general_registers) {
        *register = 0xC0DE_0000 + 0x11 * number;
    }
    general_registers[2] = 0x5A00_1FF0;
    general_registers[3] = 0xABCD_EF3F;
    general_registers[4] = 0x5A02_3000;
    Guest {
        psw_0_31: 0x0009_00CD,
        psw_32_63: 0xAB00_1000,
        general_registers,
        control_register_0: 0x0080_0000,
        control_register_1: 0xFF00_3000,
        control_register_6: 0x8000_0400,
    }
}
