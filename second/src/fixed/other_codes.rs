//! First halfwords beside those of ISK and RRB (document 02, R-4) and LRA: ending 13 covers 09, B213 and B1 no
//! more, but every other code, and B2 with any other second byte.

use super::FixedList;
use crate::setup::{Setup, VIRTUAL_EC};

/// Second bytes of B2: each that differs from 13 in one bit, and others that a wrong mask or shift would let pass.
const SECOND_BYTES: [u8; 20] = [
    0x12, 0x11, 0x17, 0x1B, 0x03, 0x33, 0x53, 0x93, 0x00, 0x01, 0x0A, 0x0D, 0x10, 0x14, 0x1F, 0x23, 0x31,
    0x34, 0xEC, 0xFF,
];

/// First bytes: each that differs from 08 or 09 in one bit, and 07.
const FIRST_BYTES: [u8; 15] =
    [0x07, 0x00, 0x01, 0x0A, 0x0B, 0x0C, 0x0D, 0x18, 0x19, 0x28, 0x29, 0x48, 0x49, 0x88, 0x89];

/// The same for B1, and B2 and B7; R1 is 3, and the index is 0.
const FIRST_BYTES_OF_LRA: [u8; 10] = [0xB0, 0xB2, 0xB3, 0xB5, 0xB7, 0xB9, 0xA1, 0x91, 0xF1, 0x31];

pub fn cases() -> Vec<FixedList> {
    let mut cases: Vec<FixedList> =
        SECOND_BYTES.map(|byte| case("", u16::from_be_bytes([0xB2, byte]), Setup::rrb())).into();
    // Registers 3 and 4, as in 0834 and 0934.
    let isk = || Setup::isk(VIRTUAL_EC);
    cases.extend(FIRST_BYTES.map(|byte| case("", u16::from_be_bytes([byte, 0x34]), isk())));
    cases.extend([0xB0, 0xB3, 0xB7].map(|byte| case("", u16::from_be_bytes([byte, 0x13]), Setup::rrb())));
    cases.extend(FIRST_BYTES_OF_LRA.map(|byte| case("", u16::from_be_bytes([byte, 0x30]), Setup::lra())));
    cases.extend([0xB213, 0xB212, 0x0934, 0x0A34, 0xB130, 0xB030].into_iter().flat_map(with_another_trouble));
    cases
}

fn case(trouble: &str, first_halfword: u16, mut setup: Setup) -> FixedList {
    setup.first_halfword = first_halfword;
    FixedList::one(&format!("code: {first_halfword:04X}{trouble}"), &setup, &[])
}

/// 12 comes before 13, 9 after it.
fn with_another_trouble(first_halfword: u16) -> [FixedList; 2] {
    let setup = match first_halfword >> 8 {
        0xB2 => Setup::rrb(),
        0xB0 | 0xB1 => Setup::lra(),
        _ => Setup::isk(VIRTUAL_EC),
    };
    let (mut odd, mut supervisor) = (setup.clone(), setup);
    odd.guest.psw_32_63 |= 1;
    supervisor.guest.psw_0_31 &= !0x0001_0000;
    [case(", odd address", first_halfword, odd), case(", PSW bit 15", first_halfword, supervisor)]
}
