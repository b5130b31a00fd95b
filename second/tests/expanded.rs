//! The expanded assist switched on (document 02, R-3), by hand: "expanded" is ending 2 if the assist is installed and
//! bit 6 of control register 6 is one, else interruption 2.
//!
//! Entries up to the test of the mask. SSM: MICCREG, register 0, second halfword (2), operand (2), MICVPSW, virtual
//! PSW: 8. STNSM, STOSM: MICVPSW, virtual PSW: 2.

mod common;

use common::*;
use second::generate::generate;
use second::setup::{Setup, ECBLOK, MICBLOK, VIRTUAL_BC, VIRTUAL_EC};
use second::{Ending, Exception};

/// A set-up of each that comes to "expanded", with its count.
fn expanded() -> [(Setup, usize); 4] {
    [
        (Setup::ssm([0x04, VIRTUAL_EC], 0x84), 8),
        (Setup::stnsm([0x07, VIRTUAL_EC], 0xF8), 2),
        (Setup::stosm([0x07, VIRTUAL_EC], 0x87), 2),
        (Setup::stosm([0x04, VIRTUAL_BC], 0x03).pending(), 2),
    ]
}

/// Not installed or installed, with bit 6 zero or one.
fn four_ways(setup: &Setup) -> [Setup; 4] {
    let installed = setup.clone().expanded();
    [setup.clone(), setup.clone().switched_on(), installed.clone(), installed.switched_on()]
}

#[test]
fn ending_2_needs_the_assist_and_the_bit() {
    for (setup, count) in expanded() {
        let [neither, bit_6, installed, both] = four_ways(&setup);
        assert_eq!(both.guest.control_register_6, 0x8200_0400);
        expect(&neither, REFUSED, count);
        expect(&bit_6, REFUSED, count);
        expect(&installed, REFUSED, count);
        expect(&both, EXPANDED, count);
    }
}

/// The attempt goes the same way: the same entries, and the same bits recorded.
#[test]
fn the_refusal_is_made_where_the_assist_would_be_called() {
    for (setup, count) in expanded() {
        let setup = setup.expanded().key(0, 0x02);
        let handed_over = expect(&setup.clone().switched_on(), EXPANDED, count);
        let refused = expect(&setup, REFUSED, count);
        assert_eq!(handed_over.answer.references, refused.answer.references);
        assert_eq!(handed_over.keys, refused.keys);
        assert_eq!(refused.keys[0], (0, 0x02, 0x06));
    }
}

/// Each bit alone beside bit 0, but those of the MICBLOK address. Bit 1 is refused in step 1, bit 3 too but for SSM.
#[test]
fn no_other_bit_switches_it_on_or_off() {
    for (setup, count) in expanded() {
        let setup = setup.expanded();
        let bit_3_passes = count == 8;
        for bit in (1..8).chain(29..32) {
            let word = 0x8000_0000 | MICBLOK | 1 << (31 - bit);
            let in_step_1 = bit == 1 || bit == 3 && !bit_3_passes;
            let ending = if bit == 6 { EXPANDED } else { REFUSED };
            expect(&setup.clone().control_register_6(word), ending, if in_step_1 { 0 } else { count });
            let (ending, count) = if in_step_1 { (REFUSED, 0) } else { (EXPANDED, count) };
            expect(&setup.clone().control_register_6(word).switched_on(), ending, count);
        }
        let others = if bit_3_passes { 0xBD00_0407 } else { 0xAD00_0407 };
        expect(&setup.clone().control_register_6(others), REFUSED, count);
        expect(&setup.control_register_6(others).switched_on(), EXPANDED, count);
    }
}

/// Figure 3 of document 002 wants ones in bits 0 and 6: with bit 0 zero step 1 refuses, before any field.
#[test]
fn bit_6_without_bit_0() {
    for (setup, _) in expanded() {
        expect(&setup.clone().expanded().control_register_6(0x0200_0400), REFUSED, 0);
        expect(&setup.expanded().control_register_6(0x4200_0400), REFUSED, 0);
    }
}

/// Each address bit of control register 6 alone (MICBLOK at 8, 10, ... 2000), bit 6 both ways.
#[test]
fn address_bits_do_not_switch() {
    for address in (3..14).map(|shift| 1 << shift) {
        let setup = Setup::stnsm([0, 0], 0xF8).word(address + 8, 0x3800).halfword(0x3800, 0x0708);
        let setup = setup.expanded().control_register_6(0x8000_0000 | address);
        expect(&setup, REFUSED, 2);
        expect(&setup.switched_on(), EXPANDED, 2);
    }
}

/// SSM's refusal in BC mode is no "expanded", nor is any other refusal.
#[test]
fn refusals_stay_refusals() {
    let bc = Setup::ssm([0x00, VIRTUAL_BC], 0x01).pending();
    let register_0 = Setup::ssm([0x04, VIRTUAL_EC], 0x84).word(ECBLOK, 0x4000_0000);
    let outside = |setup: Setup| setup.instruction(0x3FFE, 0x3FFE);
    let mut ssk = Setup::ssk();
    ssk.guest.general_registers[4] |= 1;
    for (setup, count) in [
        (bc, 8),
        (register_0, 2),
        // Step 5.
        (outside(Setup::stnsm([0x07, VIRTUAL_EC], 0xFC)), 2),
        (outside(Setup::stosm([0x04, VIRTUAL_EC], 0x03)), 2),
        // MICCREG, second halfword.
        (Setup::stctl(5, 5).operand(0x2002), 3),
        (ssk, 0),
    ] {
        for way in four_ways(&setup) {
            expect(&way, REFUSED, count);
        }
    }
}

/// What comes before the test of the mask is found whatever bit 6 is.
#[test]
fn earlier_endings_come_first() {
    let ssm = Setup::ssm([0x04, VIRTUAL_EC], 0x84);
    let stnsm = Setup::stnsm([0x07, VIRTUAL_EC], 0xF8);
    let mut odd = stnsm.clone();
    odd.guest.psw_32_63 |= 1;
    let mut supervisor = ssm.clone();
    supervisor.guest.psw_0_31 &= !0x0001_0000;
    for (setup, ending, count) in [
        (ssm.clone().word(MICBLOK + 4, 0x4000), not_in_storage(3), 1),
        (ssm.clone().instruction(0x3FFE, 0x3FFE), ADDRESSING, 2),
        (ssm.clone().psw_key(1).key(4, 0x28), PROTECTION, 5),
        (ssm.word(MICBLOK + 8, 0x3FFF), not_in_storage(8), 7),
        (stnsm.clone().word(MICBLOK + 8, 0x3FFF), not_in_storage(3), 1),
        (odd, (12, 0, 0), 0),
        (supervisor, (9, 0, 0), 0),
    ] {
        for way in four_ways(&setup) {
            expect(&way, ending, count);
        }
    }
    // The second halfword and the operand come later and are not looked at.
    let later = stnsm.instruction(0x3FFE, 0x3FFE).operand(0x4000).expanded();
    expect(&later, REFUSED, 2);
    expect(&later.switched_on(), EXPANDED, 2);
}

/// Calls that complete do so whether the assist is there or not; bit 6 is handed back as it was.
#[test]
fn completion_does_not_depend_on_it() {
    for (setup, count) in [
        (Setup::ssm([0x04, VIRTUAL_EC], 0x07), 9),
        (Setup::ssm([0xFF, VIRTUAL_BC], 0x00).pending(), 9),
        (Setup::stctl(14, 1), 15),
        (Setup::stnsm([0x07, VIRTUAL_EC], 0xFC), 7),
        (Setup::stosm([0x07, VIRTUAL_BC], 0x03).pending(), 7),
        (Setup::ssk(), 8),
    ] {
        let [neither, bit_6, installed, both] = four_ways(&setup).map(|way| expect(&way, COMPLETED, count));
        for other in [&bit_6, &installed, &both] {
            assert_eq!((&other.bytes, &other.keys), (&neither.bytes, &neither.keys));
        }
        assert_eq!(neither.answer.guest.control_register_6, 0x8000_0400);
        assert_eq!(both.answer.guest.control_register_6, 0x8200_0400);
    }
}

/// Figure 3's bits 0-7 of MICACF (at offset 14) are no part of R-3: they may be zero, ones, or not in storage.
#[test]
fn micacf_is_not_looked_at() {
    for (setup, count) in expanded() {
        let setup = setup.expanded();
        for word in [0x0000_0000, 0xFF00_0000, 0x00FF_FFFF, 0xFFFF_FFFF] {
            let setup = setup.clone().word(MICBLOK + 0x14, word);
            expect(&setup, REFUSED, count);
            expect(&setup.switched_on(), EXPANDED, count);
        }
    }
    // MICBLOK at 3FF0: MICVPSW is at 3FF8, MICACF would be at 4004.
    let top = Setup::stnsm([0x07, VIRTUAL_EC], 0xF8).control_register_6(0x8000_3FF0).word(0x3FF8, 0x600);
    expect(&top.expanded().switched_on(), EXPANDED, 2);
}

/// Virtual control register 6 is A6B6C6D6, with bit 6 one; PSW and control registers 0 and 1 have a bit 6 too.
#[test]
fn it_is_the_real_control_register_6() {
    for (setup, count) in expanded() {
        let setup = setup.expanded();
        expect(&setup.clone().word(ECBLOK + 24, 0xFFFF_FFFF), REFUSED, count);
        expect(&setup.clone().word(ECBLOK + 24, 0x0000_0000).switched_on(), EXPANDED, count);
        let mut elsewhere = setup;
        elsewhere.guest.psw_0_31 |= 0x0200_0000;
        elsewhere.guest.control_register_0 = 0x0200_0000;
        elsewhere.guest.control_register_1 = 0x0200_0000;
        expect(&elsewhere, REFUSED, count);
    }
}

/// Over random calls: bit 6 changes nothing but ending 2 to interruption 2, and only if the assist is installed.
#[test]
fn bit_6_both_ways_over_random_calls() {
    const REFUSE: Ending = Ending::Interruption(Exception::PrivilegedOperation);
    let (mut handed_over, mut same) = (0, 0);
    for index in 0..10_000 {
        let call = generate(41, index);
        let [zero, one] = [0, 0x0200_0000].map(|bit_6| {
            let mut request = call.request;
            request.guest.control_register_6 = request.guest.control_register_6 & !0x0200_0000 | bit_6;
            let (mut storage, mut keys) = (call.image.storage(), call.image.key_bytes());
            let mut answer = request.make(&mut storage, &mut keys);
            answer.guest.control_register_6 &= !0x0200_0000;
            (answer, storage, keys)
        });
        assert_ne!(zero.0.ending, Ending::ExpandedAssist);
        if one.0.ending == Ending::ExpandedAssist {
            assert!(call.request.expanded);
            assert_eq!(zero.0.ending, REFUSE);
            handed_over += 1;
        } else {
            assert_eq!(zero.0.ending, one.0.ending);
            same += 1;
        }
        assert_eq!((zero.0.references, zero.0.guest), (one.0.references, one.0.guest));
        assert!(zero.1 == one.1 && zero.2 == one.2);
    }
    assert!(handed_over > 100 && same > 9_000, "{handed_over} {same}");
}
