//! Low-address protection (document 02, R-6), by hand: which addresses, before what, with which entries and keys.
//!
//! Entries before the store test. STNSM and STOSM: MICVPSW, virtual PSW, second halfword (2, with DAT on 4): 4 or 6.
//! STCTL: MICCREG, second halfword, registers: with one register 4 or 6.

mod common;

use common::*;
use second::setup::{Setup, ECBLOK, MICBLOK, VIRTUAL_EC};
use second::ReferenceKind::*;

fn stnsm() -> Setup {
    Setup::stnsm([0x07, VIRTUAL_EC], 0xFC)
}

fn stosm() -> Setup {
    Setup::stosm([0x04, VIRTUAL_EC], 0x03)
}

/// DAT on, 4K pages, 64K segments; page 1 in frame 001, page 0 in frame 002.
fn translated(setup: Setup) -> Setup {
    setup.dat(0b10000).map(0x1000, 0x1000).map(0x0000, 0x2000)
}

#[test]
fn addresses_at_both_ends() {
    for (address, low) in [(0, true), (508, true), (511, true), (512, false)] {
        for setup in [stnsm().operand(address), stosm().operand(address)] {
            expect(&setup, COMPLETED, 7);
            expect(&translated(setup.clone()), COMPLETED, 11);
            let (ending, off, on) = if low { (PROTECTION, 4, 6) } else { (COMPLETED, 7, 11) };
            expect(&setup.clone().low_address_protection(), ending, off);
            expect(&translated(setup).low_address_protection(), ending, on);
        }
    }
    // Words; 511 is not on a word and refused by step 4, before the register is fetched.
    for (address, zero, one) in [
        (0, (COMPLETED, 6, 10), (PROTECTION, 4, 6)),
        (508, (COMPLETED, 6, 10), (PROTECTION, 4, 6)),
        (511, (REFUSED, 3, 5), (REFUSED, 3, 5)),
        (512, (COMPLETED, 6, 10), (COMPLETED, 6, 10)),
    ] {
        let setup = Setup::stctl(5, 5).operand(address);
        expect(&setup, zero.0, zero.1);
        expect(&translated(setup.clone()), zero.0, zero.2);
        expect(&setup.clone().low_address_protection(), one.0, one.1);
        expect(&translated(setup).low_address_protection(), one.0, one.2);
    }
}

#[test]
fn the_first_512_addresses_and_no_others() {
    let stored = |address: u32, setup: Setup| {
        let ran = expect(&setup.operand(address).low_address_protection(), COMPLETED, 7);
        assert_eq!(ran.named_bytes(5), &[address]);
    };
    for address in 0..512 {
        expect(&stnsm().operand(address).low_address_protection(), PROTECTION, 4);
    }
    // The virtual PSW is at 600 and 601.
    for address in 512..1_536 {
        stored(address, stnsm());
    }
    // Every bit from 2^9 up counts; those left of bit 8 of the base do not.
    for bit in 9..24 {
        stored(1 << bit, stosm().size(0x100_0000));
    }
    let mut setup = stnsm().low_address_protection();
    setup.guest.general_registers[2] = 0xFF00_01EF;
    expect(&setup, PROTECTION, 4);
}

#[test]
fn the_key_does_not_matter() {
    for psw_key in 0..16 {
        for key in [0x00, 0x0F, 0x18, 0xF0, 0xFF] {
            let setup = stnsm().operand(0x1FF).psw_key(psw_key).key(0, key).low_address_protection();
            expect(&setup, PROTECTION, 4);
        }
    }
}

#[test]
fn only_the_real_control_register_0_counts() {
    // Virtual register 0 all ones, real control register 0 zero; then the other way round.
    let setup = Setup::stctl(0, 0).operand(0x1FC).word(ECBLOK, 0xFFFF_FFFF);
    assert_eq!(expect(&setup, COMPLETED, 6).bytes[0], (0x1FC, 0x00, 0xFF));
    let mut setup = Setup::stctl(0, 0).operand(0x1FC).word(ECBLOK, 0);
    setup.guest.control_register_0 = 0x1000_0000;
    expect(&setup, PROTECTION, 4);
    setup.guest.control_register_0 = 0xEFFF_FFFF;
    setup.guest.control_register_1 = 0xFFFF_FFFF;
    expect(&setup, COMPLETED, 6);
}

#[test]
fn list_of_a_refused_stctl_round_the_top() {
    let setup = Setup::stctl_in(6, 7, 0x100_0000).operand(0xFF_FFFC).low_address_protection();
    let ran = expect(&setup, PROTECTION, 6);
    let kinds = [
        ControlField,
        KeyConsulted,
        InstructionHalfword,
        VirtualRegister,
        VirtualRegister,
        // The test of the word at FFFFFC; that at 000000 makes no entry.
        KeyConsulted,
    ];
    assert_eq!(ran.kinds(), kinds);
    assert_eq!(ran.named_bytes(0), &[0x404, 0x405, 0x406, 0x407]);
    assert_eq!(ran.named_key(1), Some(2));
    assert_eq!(ran.named_bytes(2), &[0x1002, 0x1003]);
    assert_eq!(ran.named_bytes(3), &[0x518, 0x519, 0x51A, 0x51B]);
    assert_eq!(ran.named_bytes(4), &[0x51C, 0x51D, 0x51E, 0x51F]);
    assert_eq!(ran.named_key(5), Some(0x1FFF));
    assert_eq!(ran.keys, [(0, 0x00, 0x04), (2, 0x00, 0x04)]);
}

#[test]
fn list_of_a_refused_stnsm() {
    let ran = expect(&stnsm().operand(0x1FF).low_address_protection(), PROTECTION, 4);
    assert_eq!(ran.kinds(), [ControlField, ControlField, KeyConsulted, InstructionHalfword]);
    assert_eq!(ran.named_bytes(0), &[0x408, 0x409, 0x40A, 0x40B]);
    assert_eq!(ran.named_bytes(1), &[0x600, 0x601]);
    assert_eq!(ran.named_key(2), Some(2));
    assert_eq!(ran.named_bytes(3), &[0x1002, 0x1003]);
    assert_eq!(ran.keys, [(0, 0x00, 0x04), (2, 0x00, 0x04)]);
    // With DAT on the only table entries are those of the second halfword.
    let ran = expect(&translated(stnsm().operand(0x1FF)).low_address_protection(), PROTECTION, 6);
    let kinds = [ControlField, ControlField, SegmentEntry, PageEntry, KeyConsulted, InstructionHalfword];
    assert_eq!(ran.kinds(), kinds);
    assert_eq!(ran.named_bytes(2), &[0x3000, 0x3001, 0x3002, 0x3003]);
    assert_eq!(ran.named_bytes(3), &[0x3402, 0x3403]);
}

/// DAT on, the instruction in segment 10 (hex) at 101000, its page table at 3400; the operand in segment 0, whose page
/// 0 is in frame 002 by the page table at 3800, in block 7.
fn in_another_segment(setup: Setup) -> Setup {
    let setup = setup.dat(0b10000).instruction(0x10_1000, 0x1000);
    setup.map(0x10_1000, 0x1000).map(0x0000, 0x2000)
}

/// The segment table at FFFFC0: the entry of segment 0 is not in storage, that of segment 10 is at 000000.
fn segment_entry_outside(setup: Setup) -> Setup {
    let mut setup = in_another_segment(setup).word(0, 0xF000_3400);
    setup.guest.control_register_1 = 0xFFFF_FFC0;
    setup
}

/// What is wrong with the operand's test, what it gives and how many entries it makes. Walk step 1 has been passed by
/// the second halfword; steps 2 and 4 cannot fail, as bits 8-11 and the page index of a low address are zero.
type Trouble = (fn(Setup) -> Setup, fn(u32) -> (u32, u32, u32), usize);

const TROUBLES: [Trouble; 8] = [
    (segment_entry_outside, |_| ADDRESSING, 0),
    (|setup| in_another_segment(setup).word(0x3000, 0xF000_3801), segment_translation, 1),
    (|setup| in_another_segment(setup).word(0x3000, 0xF100_3800), |_| SPECIFICATION, 1),
    (|setup| in_another_segment(setup).word(0x3000, 0xF000_4000), |_| ADDRESSING, 1),
    (|setup| in_another_segment(setup).halfword(0x3800, 0x0028), page_translation, 2),
    (|setup| in_another_segment(setup).halfword(0x3800, 0x0024), |_| SPECIFICATION, 2),
    (|setup| in_another_segment(setup).halfword(0x3800, 0x0040), |_| ADDRESSING, 2),
    (|setup| in_another_segment(setup).psw_key(1).key(4, 0x20), |_| PROTECTION, 3),
];

#[test]
fn before_every_other_exception_of_the_store_test() {
    for (trouble, ending, entries) in TROUBLES {
        for (setup, address) in [(stnsm(), 0x1FF), (stosm(), 0), (Setup::stctl(5, 5), 0x1FC)] {
            let setup = trouble(setup.operand(address));
            expect(&setup, ending(address), 6 + entries);
            expect(&setup.low_address_protection(), PROTECTION, 6);
        }
    }
    // DAT off: all low addresses are in any storage, so only the key is left.
    let setup = stnsm().operand(0x1FF).psw_key(1).key(0, 0x20);
    expect(&setup, PROTECTION, 5);
    expect(&setup.low_address_protection(), PROTECTION, 4);
}

#[test]
fn tables_of_a_refused_store_are_not_read() {
    // Blocks: 0 control fields, 2 second halfword, 4 operand, 6 segment table and page table, 7 page table.
    let setup = in_another_segment(stnsm().operand(0x1FF)).key(7, 0x01);
    let all = [(0, 0, 6), (2, 0, 4), (4, 0, 6), (6, 0, 4), (7, 1, 5)];
    assert_eq!(expect(&setup, COMPLETED, 11).keys, all);
    let ran = expect(&setup.low_address_protection(), PROTECTION, 6);
    assert_eq!(ran.keys, [(0, 0, 4), (2, 0, 4), (6, 0, 4)]);
}

#[test]
fn after_every_earlier_step() {
    let setup = stnsm().operand(0x1FF).low_address_protection();
    expect(&setup.clone().control_register_6(0xC000_0000 | MICBLOK), REFUSED, 0);
    expect(&setup.clone().control_register_6(0x8000_4000), not_in_storage(2), 0);
    expect(&setup.clone().word(MICBLOK + 8, 0x3FFF), not_in_storage(3), 1);
    expect(&setup.clone().instruction(0x3FFE, 0x3FFE), REFUSED, 2);
    expect(&setup.psw_key(1).key(2, 0x28), REFUSED, 3);
    let setup = stosm().operand(0).low_address_protection();
    expect(&setup.clone().pending().expanded().switched_on(), EXPANDED, 2);
    expect(&setup.clone().pending().expanded(), REFUSED, 2);
    expect(&setup.pending(), REFUSED, 2);
    let setup = Setup::stctl(4, 5).operand(0x1FC).low_address_protection();
    expect(&setup.clone().instruction(0x3FFE, 0x3FFE), ADDRESSING, 1);
    expect(&setup.clone().operand(0x1FD), REFUSED, 3);
    // Register 4 at 3FFC, register 5 at 4000.
    expect(&setup.word(MICBLOK + 4, 0x3FEC), not_in_storage(5), 4);
}

#[test]
fn words_are_tested_in_rising_order() {
    let round = |size| Setup::stctl_in(6, 7, size).operand(0xFF_FFFC).low_address_protection();
    // The word at FFFFFC is not in storage, or its page is not valid; its exception comes first.
    expect(&round(0x4000), ADDRESSING, 5);
    let mapped = round(0x4000).dat(0b10000).map(0x1000, 0x1000).map(0xFF_F000, 0x2000).map(0, 0x2000);
    let mapped = mapped.low_address_protection();
    expect(&mapped, PROTECTION, 10);
    expect(&mapped.halfword(0x381E, 0x0028), page_translation(0xFF_FFFC), 9);
    // Sixteen words from FFFFE0: eight are tested. From 1C8: the first is low, the last is at 204.
    let sixteen = |address| Setup::stctl_in(1, 0, 0x100_0000).operand(address).low_address_protection();
    expect(&sixteen(0xFF_FFE0), PROTECTION, 27);
    expect(&sixteen(0x1C8), PROTECTION, 19);
    expect(&sixteen(0x200), COMPLETED, 51);
}

#[test]
fn fetches_and_control_fields_are_not_affected() {
    // All of it below 512: MICBLOK at 008, ECBLOK at 020, virtual PSW at 0FE, instruction at 1F8, SSM's operand at 1FE.
    let low = |setup: Setup, psw: u16| {
        let setup = setup.control_register_6(0x8000_0008).word(0x0C, 0x20).word(0x10, 0xFE);
        let setup = setup.word(0x20, 0x8000_0000).word(0x34, 0xA5B5_C5D5);
        setup.halfword(0xFE, psw).instruction(0x1F8, 0x1F8).low_address_protection()
    };
    let mut ssm = low(Setup::ssm([0, 0], 0), 0x0408).operand(0x1FE);
    ssm.image.put(0x1FE, &[0x07]);
    assert_eq!(expect(&ssm, COMPLETED, 9).bytes, [(0xFE, 0x04, 0x07)]);
    let ran = expect(&low(stnsm(), 0x0708), COMPLETED, 7);
    assert_eq!(ran.bytes, [(0xFE, 0x07, 0x04), (0x2000, 0x00, 0x07)]);
    let ran = expect(&low(stosm(), 0x0408), COMPLETED, 7);
    assert_eq!(ran.bytes, [(0xFE, 0x04, 0x07), (0x2000, 0x00, 0x04)]);
    expect(&low(Setup::stctl(5, 5), 0), COMPLETED, 6);
    // SSM with DAT on, page 0 where it is; SSK with its swap word at 018 to 01B.
    let setup = ssm.dat(0b10000).map(0, 0).low_address_protection();
    assert_eq!(expect(&setup, COMPLETED, 13).bytes, [(0xFE, 0x04, 0x07)]);
    let setup = Setup::ssk().word(0xC0C, 0).low_address_protection();
    assert_eq!(expect(&setup, COMPLETED, 8).bytes, [(0x1A, 0x00, 0x3E)]);
}
