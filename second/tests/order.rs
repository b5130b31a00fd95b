//! The order 10, 11, 12, 13, 9, then the steps.

mod common;

use common::{expect, expect_set, run, Set, COMPLETED, REFUSED};
use second::setup::{Setup, VIRTUAL_EC};

/// Wrong in every way but storage size and number of keys.
fn wrong_setup() -> Setup {
    let mut setup = Setup::stnsm([0x07, VIRTUAL_EC], 0xFC);
    setup.first_halfword = 0x4700;
    setup.guest.psw_0_31 = 0;
    setup.guest.psw_32_63 = 0x1001;
    setup.guest.control_register_6 = 0;
    setup
}

#[test]
fn storage_size_is_tested_first() {
    for size in [0, 1, 2047, 2049, 4095, 0x4001, 16_777_215, 16_777_217, 16_777_216 + 2048] {
        let mut setup = wrong_setup();
        setup.image.storage_size = size;
        setup.image.key_count = 3;
        expect(&setup, (10, 0, 0), 0);
        setup.image.key_count = size / 2048;
        expect(&setup, (10, 0, 0), 0);
    }
}

#[test]
fn number_of_keys_is_tested_second() {
    for key_count in [0, 7, 9, 16] {
        let mut setup = wrong_setup();
        setup.image.key_count = key_count;
        expect(&setup, (11, 0, 0), 0);
    }
    // Smallest and largest storage with the right number of keys, and with one less or more.
    for (size, key_count, number) in
        [(2048, 1, 12), (2048, 0, 11), (2048, 2, 11), (16_777_216, 8192, 12), (16_777_216, 8191, 11)]
    {
        let mut setup = wrong_setup();
        setup.image.storage_size = size;
        setup.image.key_count = key_count;
        expect(&setup, (number, 0, 0), 0);
    }
}

#[test]
fn odd_instruction_address_is_tested_third() {
    let mut setup = wrong_setup();
    expect(&setup, (12, 0, 0), 0);
    setup.guest.psw_32_63 = 0xFFFF_FFFF;
    expect(&setup, (12, 0, 0), 0);
}

#[test]
fn operation_code_is_tested_fourth() {
    for operation_code in 0..=0xFF {
        for second_byte in [0x00, 0x12, 0x13, 0x14, 0xAC, 0xFF] {
            let mut setup = wrong_setup();
            setup.guest.psw_32_63 = 0x1000;
            setup.first_halfword = operation_code << 8 | second_byte;
            let whole_byte = [0x80, 0xB6, 0xAC, 0xAD, 0x08, 0x09, 0xB1].contains(&operation_code);
            let assisted = whole_byte || setup.first_halfword == 0xB213;
            expect(&setup, (if assisted { 9 } else { 13 }, 0, 0), 0);
        }
    }
}

/// Document 02, R-4: B2 with another second byte still gets 13.
#[test]
fn second_byte_of_b2() {
    for second_byte in 0..=0xFF {
        let mut setup = Setup::rrb();
        setup.first_halfword = 0xB200 | second_byte;
        match second_byte {
            0x13 => expect_set(&setup, COMPLETED, 10, Set::ConditionCode(3)),
            _ => expect(&setup, (13, 0, 0), 0),
        };
    }
}

#[test]
fn psw_bits_12_and_15_are_tested_fifth() {
    for (psw_0_31, ending) in [
        (0x0000_0000, (9, 0, 0)),
        (0x0008_0000, (9, 0, 0)),
        (0x0001_0000, (9, 0, 0)),
        (0xFFF7_FFFF, (9, 0, 0)),
        (0xFFFE_FFFF, (9, 0, 0)),
        // Then the steps: control register 6 is zero.
        (0x0009_0000, REFUSED),
    ] {
        let mut setup = wrong_setup();
        setup.guest.psw_32_63 = 0x1000;
        setup.first_halfword = 0x8000;
        setup.guest.psw_0_31 = psw_0_31;
        expect(&setup, ending, 0);
    }
}

#[test]
fn other_psw_bits_are_ignored_and_kept() {
    let mut setup = Setup::stnsm([0x07, VIRTUAL_EC], 0xFC);
    // All but bit 5 (DAT) and bits 8-11 (key).
    setup.guest.psw_0_31 = 0xFB0F_FFFF;
    setup.guest.psw_32_63 = 0xAB00_1000;
    let ran = expect(&setup, COMPLETED, 7);
    assert_eq!(ran.answer.guest.psw_32_63, 0xAB00_1004);
    assert_eq!(ran.answer.guest.psw_0_31, 0xFB0F_FFFF);
}

#[test]
fn instruction_address_goes_round() {
    // 16 MiB: the second halfword of an instruction at FFFFFE is at 000000; the next is at 000002.
    let setup = Setup::stnsm([0x07, VIRTUAL_EC], 0xFC).size(0x100_0000).instruction(0xCDFF_FFFE, 0xFF_FFFE);
    let mut setup = setup.halfword(0, 0x2010);
    setup.image.bytes.remove(&0x100_0000);
    let ran = expect(&setup, COMPLETED, 7);
    assert_eq!(ran.named_bytes(3), &[0, 1]);
    assert_eq!(ran.answer.guest.psw_32_63, 0xCD00_0002);
    let mut ssk = Setup::ssk();
    ssk.guest.psw_32_63 = 0x00FF_FFFE;
    assert_eq!(expect(&ssk, COMPLETED, 8).answer.guest.psw_32_63, 0);
}

/// "01's sentence that nothing else in it changes holds for the first five" (document 02, R-4).
#[test]
fn nothing_else_in_the_record_changes() {
    for setup in [
        Setup::ssm([0x04, VIRTUAL_EC], 0x07),
        Setup::stctl(1, 0),
        Setup::stnsm([0x07, VIRTUAL_EC], 0xFC),
        Setup::stosm([0x04, VIRTUAL_EC], 0x03),
        Setup::ssk(),
    ] {
        let ran = run(&setup);
        let mut record = ran.answer.guest;
        assert_ne!(record, setup.guest);
        record.psw_32_63 = setup.guest.psw_32_63;
        assert_eq!(record, setup.guest);
    }
}
