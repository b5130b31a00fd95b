//! Low-address protection (document 02, R-6): each bit of control register 0 alone, and addresses on both sides of 512
//! with bit 3 both ways. Random registers have several bits at once, so that a wrong bit would seldom show.

use super::FixedList;
use crate::setup::{Setup, OPERAND, VIRTUAL_EC};

/// Addresses of the byte of STNSM and STOSM.
const BYTES: [u32; 5] = [0x000, 0x1FC, 0x1FF, 0x200, OPERAND];
/// R3 of STCTL, where R1 is 6; its number of registers; the address of its words.
const WORDS: [(u16, &str, u32); 6] = [
    (6, "one register", 0x000),
    (6, "one register", 0x1FC),
    (6, "one register", 0x200),
    (6, "one register", OPERAND),
    (7, "two registers", 0x1F8),
    (7, "two registers", 0x1FC),
];

pub fn cases() -> Vec<FixedList> {
    let mut cases: Vec<FixedList> = (0..32).map(one_bit).collect();
    for address in BYTES {
        cases.extend(both_ways(&format!("operand {address:03X}"), &stnsm().operand(address)));
    }
    for address in BYTES {
        let stosm = Setup::stosm([0x04, VIRTUAL_EC], 0x03);
        cases.extend(both_ways(&format!("operand {address:03X}"), &stosm.operand(address)));
    }
    for (r3, registers, address) in WORDS {
        let stctl = Setup::stctl(6, r3).operand(address);
        cases.extend(both_ways(&format!("{registers}, operand {address:03X}"), &stctl));
    }
    cases.extend(both_ways("DAT on, operand FFFFFC", &round_the_top()));
    cases
}

fn stnsm() -> Setup {
    Setup::stnsm([0x07, VIRTUAL_EC], 0xFC)
}

/// Words at FFFFFC and 000000, both pages in frame 002 (4K pages, 64K segments).
fn round_the_top() -> Setup {
    let setup = Setup::stctl(6, 7).operand(0xFF_FFFC).dat(0b10000);
    setup.map(0x1000, 0x1000).map(0xFF_F000, 0x2000).map(0x0000, 0x2000)
}

/// Operand at 1FF, DAT off.
fn one_bit(bit: u32) -> FixedList {
    let mut setup = stnsm().operand(0x1FF);
    setup.guest.control_register_0 = 0x8000_0000 >> bit;
    FixedList::one(&format!("low address: operand 1FF, bit {bit} alone"), &setup, &[])
}

fn both_ways(operand: &str, setup: &Setup) -> [FixedList; 2] {
    let list = |way: &str, setup: &Setup| {
        FixedList::one(&format!("low address: {operand}, bit 3 {way}"), setup, &[])
    };
    [list("zero", setup), list("one", &setup.clone().low_address_protection())]
}
