//! Protection: store and fetch, key match, key zero, fetch bit.

mod common;

use common::*;
use second::setup::{Setup, VIRTUAL_EC};

#[test]
fn fetch_protection() {
    // PSW key, key of the operand's block, passes.
    for (psw_key, key, passes) in [
        (0, 0xF8, true),
        (0, 0x10, true),
        (1, 0x10, true),
        (1, 0x18, true),
        (1, 0x20, true),
        (1, 0x28, false),
        (1, 0x08, false),
        (1, 0x00, true),
        (15, 0xF8, true),
        (15, 0xEF, false),
        (15, 0xE7, true),
    ] {
        let setup = Setup::ssm([0x04, VIRTUAL_EC], 0x07).psw_key(psw_key).key(4, key);
        if passes {
            expect(&setup, COMPLETED, 9);
        } else {
            expect(&setup, PROTECTION, 5);
        }
    }
}

#[test]
fn store_protection() {
    for (psw_key, key, passes) in [
        (0, 0xF8, true),
        (0, 0x10, true),
        (1, 0x10, true),
        (1, 0x1F, true),
        (1, 0x20, false),
        (1, 0x28, false),
        (1, 0x00, false),
        (1, 0x07, false),
        (15, 0xF0, true),
        (15, 0xE0, false),
    ] {
        let stnsm = Setup::stnsm([0x07, VIRTUAL_EC], 0xFC).psw_key(psw_key).key(4, key);
        let stctl = Setup::stctl(5, 5).psw_key(psw_key).key(4, key);
        if passes {
            expect(&stnsm, COMPLETED, 7);
            expect(&stctl, COMPLETED, 6);
        } else {
            expect(&stnsm, PROTECTION, 5);
            expect(&stctl, PROTECTION, 5);
        }
    }
}

#[test]
fn control_fields_use_key_zero() {
    // MICBLOK, ECBLOK and virtual PSW are in block 0, protected against key 1 in every way.
    for (setup, count) in [
        (Setup::ssm([0x04, VIRTUAL_EC], 0x07), 9),
        (Setup::stctl(5, 5), 6),
        (Setup::stnsm([0x07, VIRTUAL_EC], 0xFC), 7),
        (Setup::stosm([0x04, VIRTUAL_EC], 0x03), 7),
    ] {
        expect(&setup.psw_key(1).key(0, 0xF8).key(2, 0x10).key(4, 0x10), COMPLETED, count);
    }
}

#[test]
fn translation_tables_use_no_key() {
    // Block 6 holds the tables.
    let setup = Setup::stctl(5, 5).dat(0b10000).map(0x1000, 0x1000).map(0x2000, 0x2000);
    expect(&setup.psw_key(1).key(6, 0xF8).key(4, 0x10), COMPLETED, 10);
}

#[test]
fn block_of_the_real_address_counts() {
    // Logical 5000 in frame 002000: block 4 is consulted, not block A.
    let setup = Setup::stctl(5, 5).dat(0b10000).map(0x1000, 0x1000).map(0x5000, 0x2000).operand(0x5800);
    let ran = expect(&setup.clone().psw_key(1).key(5, 0x10), COMPLETED, 10);
    assert_eq!(ran.named_key(8), Some(5));
    expect(&setup.psw_key(1).key(4, 0x10), PROTECTION, 9);
}

#[test]
fn recorded_bits_do_not_protect() {
    // Every combination of the three right bits: only the left five decide.
    for right_bits in 0..8 {
        let setup = Setup::stctl(5, 5).psw_key(1).key(2, 0x20 | right_bits);
        expect(&setup.clone().key(4, 0x10 | right_bits), COMPLETED, 6);
        expect(&setup.key(4, 0x20 | right_bits), PROTECTION, 5);
    }
}
