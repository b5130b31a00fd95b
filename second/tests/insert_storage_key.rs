//! ISK, step by step (document 002, with Figures 6 and 7). MICBLOK and the virtual PSW are in block 0, the tables in
//! block 1; both are read (04).

mod common;

use common::*;
use second::setup::{Setup, MICBLOK, VIRTUAL_BC, VIRTUAL_EC};
use second::ReferenceKind::*;

fn isk() -> Setup {
    Setup::isk(VIRTUAL_EC)
}

/// Completes with AE in register 3: byte 2 of the swap word is AD, key 53 has the change bit.
fn completes(setup: &Setup) -> Ran {
    expect_set(setup, COMPLETED, 8, Set::Register(3, 0xABCD_EFAE))
}

#[test]
fn list_of_references_valid_page() {
    let ran = completes(&isk());
    assert_eq!(ran.kinds()[..5], [ControlField; 5]);
    assert_eq!(ran.kinds()[5..], [KeyConsulted, ControlField, ControlField]);
    // Steps 2, 5, 7, 8, 9.
    assert_eq!(ran.named_bytes(0), &[0x400, 0x401, 0x402, 0x403]);
    assert_eq!(ran.named_bytes(1), &[0x808, 0x809, 0x80A, 0x80B]);
    assert_eq!(ran.named_bytes(2), &[0xC0C, 0xC0D, 0xC0E, 0xC0F]);
    assert_eq!(ran.named_bytes(3), &[0xD18, 0xD19, 0xD1A, 0xD1B]);
    assert_eq!(ran.named_bytes(4), &[0xC16, 0xC17]);
    // Steps 11, 12, 13; Figure 7 has two bytes of the virtual PSW.
    assert_eq!(ran.named_key(5), Some(2));
    assert_eq!(ran.named_bytes(6), &[0x408, 0x409, 0x40A, 0x40B]);
    assert_eq!(ran.named_bytes(7), &[0x600, 0x601]);
    assert_eq!((ran.bytes, ran.keys), (vec![], vec![(0, 0x00, 0x04), (1, 0x00, 0x04)]));
}

#[test]
fn list_of_references_invalid_page() {
    // Step 11 is not performed: no key entry. Bits 13-14 and the frame do not matter.
    for page_entry in [0x0018, 0x001E, 0xFFFF, 0x0008] {
        let setup = isk().halfword(0xC16, page_entry);
        let ran = expect_set(&setup, COMPLETED, 7, Set::Register(3, 0xABCD_EFAC));
        assert_eq!(ran.kinds(), [ControlField; 7]);
        assert_eq!((ran.named_bytes(5)[0], ran.named_bytes(6)), (0x408, &[0x600, 0x601][..]));
    }
}

#[test]
fn step_1() {
    for bits_0_3 in 0..16 {
        let setup = isk().control_register_6(bits_0_3 << 28 | 0x0F00_0007 | MICBLOK);
        if bits_0_3 >> 1 == 0b100 {
            completes(&setup);
        } else {
            expect(&setup, REFUSED, 0);
        }
    }
    for bit in [1, 2, 4, 8] {
        expect(&isk().register(4, 0x5A02_3000 | bit), REFUSED, 0);
        completes(&isk().register(4, 0x5A02_3000 | bit << 4));
    }
    // R1's bits 28-31 do not matter.
    let setup = isk().register(3, 0xABCD_EFF0);
    expect_set(&setup, COMPLETED, 8, Set::Register(3, 0xABCD_EFAE));
    // Before MICRSEG.
    expect(&isk().register(4, 0x5A02_3001).control_register_6(0x8000_4000), REFUSED, 0);
}

#[test]
fn dat_key_low_addresses_and_instruction_do_not_matter() {
    // DAT on with a wrong format, PSW key 5, instruction outside storage, bit 3 of control register 0.
    let mut setup = isk().psw_key(5).key(0, 0xF8).key(1, 0xF8).key(2, 0x2B).low_address_protection();
    setup.guest.psw_0_31 |= 0x0400_0000;
    setup.guest.psw_32_63 = 0x12FF_FFF0;
    completes(&setup);
    setup.guest.psw_32_63 = 0x12FF_FFFE;
    assert_eq!(completes(&setup).answer.guest.psw_32_63, 0x1200_0000);
}

/// Places: MICRSEG 1, segment entry 2, swap-table address 3, swap word 4, page entry 5, key block 6, MICVPSW 7, virtual
/// PSW 8; the last two one less if the page is invalid.
#[test]
fn ending_3_carries_the_place() {
    expect(&isk().control_register_6(0x8000_4000), not_in_storage(1), 0);
    expect(&isk().word(MICBLOK, 0x4000), not_in_storage(2), 1);
    expect(&isk().word(0x808, 0xF000_0000), not_in_storage(3), 2);
    expect(&isk().word(0x808, 0xF000_4008), not_in_storage(3), 2);
    // Swap word at 3FE8 + 18 = 4000, and at 3FFD: partly outside.
    expect(&isk().word(0xC0C, 0x3FE8), not_in_storage(4), 3);
    expect(&isk().word(0xC0C, 0x3FE5), not_in_storage(4), 3);
    expect(&isk().word(0x808, 0xF000_4000).word(0x3FFC, 0xD00), not_in_storage(5), 4);
    expect(&isk().halfword(0xC16, 0x0040), not_in_storage(6), 5);
    expect(&isk().halfword(0xC16, 0xFFF0), not_in_storage(6), 5);
    let micvpsw = isk().control_register_6(0x8000_3FF8).word(0x3FF8, 0x800);
    let virtual_psw = |address| isk().word(MICBLOK + 8, address);
    expect(&micvpsw, not_in_storage(7), 6);
    expect(&virtual_psw(0x4000), not_in_storage(8), 7);
    expect(&virtual_psw(0x3FFF), not_in_storage(8), 7);
    expect(&micvpsw.halfword(0xC16, 0x0018), not_in_storage(6), 5);
    expect(&virtual_psw(0x4000).halfword(0xC16, 0x0018), not_in_storage(7), 6);
}

#[test]
fn ending_3_in_words() {
    let words = |setup: Setup| run(&setup).answer.ending.words();
    assert_eq!(words(isk().control_register_6(0x8000_4000)), "not in storage, place 1");
    assert_eq!(words(isk().halfword(0xC16, 0x0FF0)), "not in storage, place 6");
    // SSK keeps its step numbers.
    assert_eq!(words(Setup::ssk().halfword(0xC16, 0x0FF0)), "not in storage, step 11");
}

#[test]
fn key_block_half_a_frame_in_storage() {
    // 4K + 2K of storage: frame 001000 has its lower half only.
    completes(&isk().size(0x1800));
    expect(&isk().size(0x1800).register(4, 0x5A02_3800), not_in_storage(6), 5);
}

#[test]
fn steps_3_and_4() {
    expect(&isk().word(MICBLOK, 0x0000_0802), REFUSED, 1);
    expect(&isk().word(MICBLOK, 0x0000_0803), REFUSED, 1);
    completes(&isk().word(MICBLOK, 0x0000_083C));
    // Bit 30 before the length, the length before the segment entry.
    expect(&isk().word(MICBLOK, 0x0000_4002), REFUSED, 1);
    let segment_f2 = isk().register(4, 0x00F2_3000).word(0xBC8, 0xF000_0C10);
    expect(&segment_f2.clone().word(MICBLOK, 0x0E00_4000), REFUSED, 1);
    expect(&segment_f2.clone().word(MICBLOK, 0x0E00_0800), REFUSED, 1);
    completes(&segment_f2.word(MICBLOK, 0x0F00_0800));
}

#[test]
fn segments_of_1m() {
    // Address 523000: segment 5 at 814, page 23: swap word at D00 + 118 = E18, page entry at C10 + 46 = C56.
    let setup = isk().word(MICBLOK, 0x0000_0801).register(4, 0x5A52_3000).word(0x814, 0x2000_0C10);
    let setup = setup.halfword(0xC56, 0x0010).word(0xE18, 0x0000_AD00);
    let ran = completes(&setup);
    assert_eq!([1, 3, 4].map(|entry| ran.named_bytes(entry)[0]), [0x814, 0xE18, 0xC56]);
    // The page index's four leftmost bits are 2.
    expect(&setup.word(0x814, 0x1000_0C10), REFUSED, 2);
}

#[test]
fn steps_6_and_10() {
    for segment_entry in [0xF000_0C11, 0xF800_0C10, 0xF100_0C10, 0x2000_0C10] {
        expect(&isk().word(0x808, segment_entry), REFUSED, 2);
    }
    completes(&isk().word(0x808, 0x3000_0C16));
    expect(&isk().halfword(0xC16, 0x0012), REFUSED, 5);
    expect(&isk().halfword(0xC16, 0x0014), REFUSED, 5);
    completes(&isk().halfword(0xC16, 0x0011));
    // Format before the key block and before MICVPSW.
    expect(&isk().halfword(0xC16, 0xFFF6), REFUSED, 5);
    expect(&isk().halfword(0xC16, 0x0012).word(MICBLOK + 8, 0x4000), REFUSED, 5);
}

#[test]
fn step_12_and_13() {
    // The pending bit and the other bits of MICVPSW's byte 0 are no part of the address, and nothing else.
    completes(&isk().word(MICBLOK + 8, 0xFF00_0600));
    // Bit 12 of the virtual PSW alone decides.
    let result = |virtual_psw: u16, contents| {
        let setup = isk().halfword(0x600, virtual_psw);
        expect_set(&setup, COMPLETED, 8, Set::Register(3, contents));
    };
    for bit in 0..16 {
        let (alone, all_others) = (0x8000 >> bit, !(0x8000 >> bit));
        result(alone, if bit == 12 { 0xABCD_EFAE } else { 0xABCD_EFA8 });
        result(all_others, if bit == 12 { 0xABCD_EFA8 } else { 0xABCD_EFAE });
    }
}

/// PSW bits 18-19 too: every bit but 5 (DAT) and 8-11 (key) is one and stays.
#[test]
fn condition_code_stays() {
    let mut setup = isk();
    setup.guest.psw_0_31 = 0xFB0F_FFFF;
    setup.guest.psw_32_63 = 0xFF00_1000;
    assert_eq!(completes(&setup).answer.guest.psw_0_31, 0xFB0F_FFFF);
}

/// Figure 6, with R1 low byte 3F, or 00: only its bits 0-23 stay.
#[test]
fn step_14() {
    // Virtual key, real key, and the byte inserted: EC valid, EC invalid, BC.
    for (virtual_key, real_key, valid, invalid, bc) in [
        (0x00u32, 0x00, 0x00, 0x00, 0x00),
        (0x00, 0xFF, 0x06, 0x00, 0x00),
        (0x00, 0xF9, 0x00, 0x00, 0x00),
        (0x00, 0x04, 0x04, 0x00, 0x00),
        (0x00, 0x02, 0x02, 0x00, 0x00),
        (0xFF, 0x00, 0xFE, 0xFE, 0xF8),
        (0x01, 0x00, 0x00, 0x00, 0x00),
        (0x04, 0x00, 0x04, 0x04, 0x00),
        (0x02, 0x04, 0x06, 0x02, 0x00),
        (0x9A, 0x64, 0x9E, 0x9A, 0x98),
        (0x6D, 0x92, 0x6E, 0x6C, 0x68),
    ] {
        for (bit_20, swap_word) in [(0, virtual_key << 8 | 0xFFFF_00FF), (1, virtual_key | 0x0000_FF00)] {
            for r1 in [0xABCD_EF3F, 0x0000_0000] {
                let setup = |virtual_psw| {
                    let setup =
                        Setup::isk(virtual_psw).register(3, r1).register(4, 0x5A02_3000 | bit_20 << 11);
                    setup.key(2, !real_key).key(3, !real_key).key(2 + bit_20, real_key).word(0xD18, swap_word)
                };
                let inserted = |byte: u32| Set::Register(3, r1 & 0xFFFF_FF00 | byte);
                expect_set(&setup(VIRTUAL_EC), COMPLETED, 8, inserted(valid));
                expect_set(&setup(VIRTUAL_BC), COMPLETED, 8, inserted(bc));
                let page_invalid = |virtual_psw| setup(virtual_psw).halfword(0xC16, 0x0018);
                expect_set(&page_invalid(VIRTUAL_EC), COMPLETED, 7, inserted(invalid));
                expect_set(&page_invalid(VIRTUAL_BC), COMPLETED, 7, inserted(bc));
            }
        }
    }
}

#[test]
fn every_register() {
    for r1 in 0..16u16 {
        for r2 in 0..16u16 {
            let mut setup = isk().register(usize::from(r2), 0x5A02_3000);
            setup.first_halfword = 0x0900 | r1 << 4 | r2;
            let old = setup.guest.general_registers[usize::from(r1)];
            let set = Set::Register(usize::from(r1), old & 0xFFFF_FF00 | 0xAE);
            expect_set(&setup, COMPLETED, 8, set);
        }
    }
}

/// step 11 reads what steps 2 to 9 have recorded, and not what steps 12 and 13 record. Virtual key A8.
#[test]
fn recording_in_the_page_s_own_block() {
    let setup = isk().word(0xD18, 0x0000_A800).halfword(0xC16, 0x0000).key(0, 0x53).key(2, 0);
    let ran = expect_set(&setup, COMPLETED, 8, Set::Register(3, 0xABCD_EFAE));
    assert_eq!(ran.keys, [(0, 0x53, 0x57), (1, 0x00, 0x04)]);
    // MICBLOK at 1700 in block 2, the page's: MICRSEG at 1700 shows.
    let setup = isk().word(0xD18, 0x0000_A800).control_register_6(0x8000_1700).key(2, 0x51);
    let setup = setup.word(0x1700, 0x800).word(0x1708, 0x600);
    let ran = expect_set(&setup, COMPLETED, 8, Set::Register(3, 0xABCD_EFAC));
    assert_eq!(ran.keys, [(0, 0x00, 0x04), (1, 0x00, 0x04), (2, 0x51, 0x55)]);
    // MICBLOK at 17F8: MICRSEG in block 2, MICVPSW at 1800 in block 3, whose page is looked at.
    let setup = isk().word(0xD18, 0x0000_00A8).control_register_6(0x8000_17F8).key(3, 0x51);
    let setup = setup.word(0x17F8, 0x800).word(0x1800, 0x600).register(4, 0x5A02_3800);
    let ran = expect_set(&setup, COMPLETED, 8, Set::Register(3, 0xABCD_EFA8));
    assert_eq!(ran.keys, [(0, 0x00, 0x04), (1, 0x00, 0x04), (2, 0x53, 0x57), (3, 0x51, 0x55)]);
}

#[test]
fn items_that_go_round_in_16_mib() {
    let large = || isk().size(0x100_0000);
    let setup = large().word(0xC0C, 0x00FF_FFE6).word(0xFF_FFFE, 0x0000_AD00);
    assert_eq!(completes(&setup).named_bytes(3), &[0xFF_FFFE, 0xFF_FFFF, 0, 1]);
    let setup = large().word(MICBLOK + 8, 0x00FF_FFFF).word(0xFF_FFFF, 0x0008_0000);
    assert_eq!(completes(&setup).named_bytes(7), &[0xFF_FFFF, 0]);
    // MICBLOK at FFFFF8: MICVPSW is at 000000.
    let setup = large().control_register_6(0x80FF_FFF8).word(0xFF_FFF8, 0x800).word(0, 0x600);
    assert_eq!(completes(&setup).named_bytes(6), &[0, 1, 2, 3]);
}

/// 10, 11, 12 and 9, in this order, and before step 1.
#[test]
fn endings_before_the_steps() {
    let mut setup = isk().control_register_6(0);
    setup.guest.psw_0_31 &= !0x0008_0000;
    expect(&setup, (9, 0, 0), 0);
    setup.guest.psw_0_31 = setup.guest.psw_0_31 & !0x0001_0000 | 0x0008_0000;
    expect(&setup, (9, 0, 0), 0);
    setup.guest.psw_32_63 |= 1;
    expect(&setup, (12, 0, 0), 0);
    setup.image.key_count += 1;
    expect(&setup, (11, 0, 0), 0);
    setup.image.storage_size += 1;
    expect(&setup, (10, 0, 0), 0);
}
