//! The expanded assist switched on (document 02, R-3): each place where an instruction says "expanded", and SSM's
//! refusal in BC mode, with the assist installed or not and control register 6 bit 6 both ways; and what else might be
//! taken for the switch: the other bits of that register, and MICACF. Random registers have several bits at once, so
//! that a wrong bit would seldom show.

use super::FixedList;
use crate::setup::{Setup, MICBLOK, VIRTUAL_BC, VIRTUAL_EC};

/// MICACF: the word at offset 14 (hex), which document 01 does not use.
const MICACF: u32 = MICBLOK + 0x14;

/// Bits of control register 6 that are no part of the MICBLOK address; bit 0 is always one.
const BITS: [u32; 10] = [1, 2, 3, 4, 5, 6, 7, 29, 30, 31];

pub fn cases() -> Vec<FixedList> {
    let mut cases: Vec<FixedList> =
        places().into_iter().flat_map(|(place, setup)| four_ways(place, &setup)).collect();
    for (setup, others) in instructions() {
        let setup = setup.expanded();
        cases.extend(BITS.map(|bit| one_bit(&setup, bit)));
        cases.extend(both_ways("other bits one", &setup.clone().control_register_6(others | MICBLOK)));
        cases.push(list("MICACF ones, bit 6 zero", &setup.word(MICACF, 0xFFFF_FFFF)));
    }
    cases
}

/// Where "expanded" is said, each for one bit of the mask; at last where SSM refuses instead.
fn places() -> Vec<(&'static str, Setup)> {
    vec![
        ("EC, bit 1 changed", Setup::ssm([0x04, VIRTUAL_EC], 0x44)),
        ("EC, bit 5 changed", Setup::ssm([0x04, VIRTUAL_EC], 0x00)),
        ("EC, new bit 4 one", Setup::ssm([0x04, VIRTUAL_EC], 0x0C)),
        ("EC, pending, bit 7 to one", Setup::ssm([0x04, VIRTUAL_EC], 0x05).pending()),
        ("EC, bit 1 to zero", Setup::stnsm([0x47, VIRTUAL_EC], 0xBF)),
        ("EC, bit 5 to zero", Setup::stnsm([0x47, VIRTUAL_EC], 0xFB)),
        ("EC, bit 5 to one", Setup::stosm([0x00, VIRTUAL_EC], 0x04)),
        ("EC, pending, bit 6 to one", Setup::stosm([0x00, VIRTUAL_EC], 0x02).pending()),
        ("BC, pending, bit 0 to one", Setup::stosm([0x00, VIRTUAL_BC], 0x80).pending()),
        ("BC, pending, bit 0 to one", Setup::ssm([0x00, VIRTUAL_BC], 0x80).pending()),
    ]
}

/// A set-up of each that comes to "expanded"; ones in bit 0 and every other bit that step 1 lets pass, but bit 6.
fn instructions() -> [(Setup, u32); 3] {
    [
        (Setup::ssm([0x04, VIRTUAL_EC], 0x84), 0xBD00_0007),
        (Setup::stnsm([0x07, VIRTUAL_EC], 0xF8), 0xAD00_0007),
        (Setup::stosm([0x04, VIRTUAL_EC], 0x87), 0xAD00_0007),
    ]
}

fn list(case: &str, setup: &Setup) -> FixedList {
    FixedList::one(&format!("expanded: {case}"), setup, &[])
}

fn four_ways(place: &str, setup: &Setup) -> Vec<FixedList> {
    let installed = both_ways(&format!("{place}, installed"), &setup.clone().expanded());
    let not_installed = both_ways(&format!("{place}, not installed"), setup);
    installed.into_iter().chain(not_installed).collect()
}

fn both_ways(case: &str, setup: &Setup) -> [FixedList; 2] {
    [
        list(&format!("{case}, bit 6 one"), &setup.clone().switched_on()),
        list(&format!("{case}, bit 6 zero"), setup),
    ]
}

fn one_bit(setup: &Setup, bit: u32) -> FixedList {
    let word = 0x8000_0000 | 0x8000_0000 >> bit | MICBLOK;
    list(&format!("bit {bit} alone beside bit 0"), &setup.clone().control_register_6(word))
}
