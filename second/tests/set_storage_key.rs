//! SSK, step by step. MICBLOK is in block 0, which is read (04), the tables in block 1, which is also stored in (06).

mod common;

use common::*;
use second::setup::{Setup, MICBLOK};
use second::ReferenceKind::*;

#[test]
fn list_of_references_valid_page() {
    let ran = expect(&Setup::ssk(), COMPLETED, 8);
    assert_eq!(ran.kinds()[..5], [ControlField; 5]);
    assert_eq!(ran.kinds()[5..], [KeyConsulted, KeySet, Store]);
    assert_eq!(ran.named_bytes(0), &[0x400, 0x401, 0x402, 0x403]);
    assert_eq!(ran.named_bytes(1), &[0x808, 0x809, 0x80A, 0x80B]);
    assert_eq!(ran.named_bytes(2), &[0xC0C, 0xC0D, 0xC0E, 0xC0F]);
    assert_eq!(ran.named_bytes(3), &[0xD18, 0xD19, 0xD1A, 0xD1B]);
    assert_eq!(ran.named_bytes(4), &[0xC16, 0xC17]);
    assert_eq!((ran.named_key(5), ran.named_key(6)), (Some(2), Some(2)));
    assert_eq!(ran.named_bytes(7), &[0xD18, 0xD19, 0xD1A, 0xD1B]);
}

#[test]
fn segments_of_1m() {
    // Address 523000: segment 5 at 814, page 23: swap word at D00 + 118 = E18, page entry at C10 + 46 = C56.
    let ran = expect(&Setup::ssk_1m().key(2, 0x06), COMPLETED, 8);
    assert_eq!(ran.named_bytes(1)[0], 0x814);
    assert_eq!(ran.named_bytes(3)[0], 0xE18);
    assert_eq!(ran.named_bytes(4)[0], 0xC56);
    assert_eq!(ran.bytes, [(0xE18, 0, 0x0C), (0xE1A, 0, 0x3E)]);
    assert_eq!(ran.keys, [(0, 0x00, 0x04), (1, 0x00, 0x06), (2, 0x06, 0x38)]);
}

#[test]
fn step_1() {
    for bits_0_3 in 0..16 {
        let setup = Setup::ssk().control_register_6(bits_0_3 << 28 | 0x0F00_0007 | MICBLOK);
        if bits_0_3 >> 1 == 0b100 {
            expect(&setup, COMPLETED, 8);
        } else {
            expect(&setup, REFUSED, 0);
        }
    }
    for bit in [1, 2, 4, 8] {
        let mut setup = Setup::ssk();
        setup.guest.general_registers[4] |= bit;
        expect(&setup, REFUSED, 0);
        setup.guest.general_registers[4] = (setup.guest.general_registers[4] & !0xF) | bit << 4;
        expect(&setup, COMPLETED, 8);
    }
}

#[test]
fn registers_0_and_the_same() {
    // R2 = 0 means register 0's contents; R1 = R2: low byte 00.
    let mut setup = Setup::ssk().key(2, 0xFE);
    setup.first_halfword = 0x0800;
    setup.guest.general_registers[0] = 0x0002_3000;
    let ran = expect(&setup, COMPLETED, 8);
    assert_eq!(ran.keys, [(0, 0x00, 0x04), (1, 0x00, 0x06), (2, 0xFE, 0x00)]);
    assert_eq!(ran.bytes, [(0xD18, 0, 0x0C)]);
}

#[test]
fn dat_key_and_instruction_do_not_matter() {
    // DAT on with a wrong format, PSW key 5, instruction outside storage.
    let mut setup = Setup::ssk().psw_key(5).key(0, 0xF8).key(1, 0xF8).key(2, 0x28);
    setup.guest.psw_0_31 |= 0x0400_0000;
    setup.guest.psw_32_63 = 0x00FF_FFF0;
    expect(&setup, COMPLETED, 8);
}

#[test]
fn control_fields_not_in_storage() {
    expect(&Setup::ssk().control_register_6(0x8000_4000), not_in_storage(2), 0);
    // Segment table at 003FC0 + 8 is in storage, at 004000 is not; at FFFFC0 segment 10 (hex) is at 000000.
    expect(&Setup::ssk().word(MICBLOK, 0x4000), not_in_storage(5), 1);
    // Page-table origin 0: the swap address would be at FFFFFC; origin 4008 has it at 4004.
    expect(&Setup::ssk().word(0x808, 0xF000_0000), not_in_storage(7), 2);
    expect(&Setup::ssk().word(0x808, 0xF000_4008), not_in_storage(7), 2);
    // Swap word at 3FE8 + 18 = 4000, and at 3FFD: partly outside.
    expect(&Setup::ssk().word(0xC0C, 0x3FE8), not_in_storage(8), 3);
    expect(&Setup::ssk().word(0xC0C, 0x3FE5), not_in_storage(8), 3);
    expect(&Setup::ssk().word(0xC0C, 0xFF00_3FE4), COMPLETED, 8);
    // Page table at 4000, swap address at 3FFC.
    let setup = Setup::ssk().word(0x808, 0xF000_4000).word(0x3FFC, 0xD00);
    expect(&setup, not_in_storage(9), 4);
    // Frame 004000.
    expect(&Setup::ssk().halfword(0xC16, 0x0040), not_in_storage(11), 5);
    expect(&Setup::ssk().halfword(0xC16, 0xFFF0), not_in_storage(11), 5);
}

#[test]
fn key_block_half_a_frame_in_storage() {
    // 4K + 2K of storage: frame 001000 has its lower half only.
    let mut setup = Setup::ssk().size(0x1800);
    expect(&setup, COMPLETED, 8);
    setup.guest.general_registers[4] |= 0x800;
    expect(&setup, not_in_storage(11), 5);
}

#[test]
fn step_3_2k_pages() {
    expect(&Setup::ssk().word(MICBLOK, 0x0000_0802), REFUSED, 1);
    expect(&Setup::ssk().word(MICBLOK, 0x0000_0803), REFUSED, 1);
    // Bits 26-29 do not matter.
    expect(&Setup::ssk().word(MICBLOK, 0x0000_083C), COMPLETED, 8);
}

#[test]
fn step_4_length() {
    // Address F23000: segment F2 at 800 + 3C8 = BC8. Length must be F or more.
    let mut setup = Setup::ssk().word(0xBC8, 0xF000_0C10);
    setup.guest.general_registers[4] = 0x00F2_3000;
    expect(&setup.clone().word(MICBLOK, 0x0E00_0800), REFUSED, 1);
    expect(&setup.clone().word(MICBLOK, 0x0F00_0800), COMPLETED, 8);
    expect(&setup.clone().word(MICBLOK, 0xFF00_0800), COMPLETED, 8);
    // For 1M there is no such test: address 523000 with length 0.
    expect(&Setup::ssk_1m(), COMPLETED, 8);
    // Length before the segment entry.
    expect(&setup.word(MICBLOK, 0x0000_4000), REFUSED, 1);
}

#[test]
fn step_6_segment_entry() {
    expect(&Setup::ssk().word(0x808, 0xF000_0C11), REFUSED, 2);
    for bit in [0x0800_0000, 0x0400_0000, 0x0200_0000, 0x0100_0000] {
        expect(&Setup::ssk().word(0x808, 0xF000_0C10 | bit), REFUSED, 2);
    }
    // Page 3 of 64K: length 2 is too short, 3 is enough. Bits 29-30 do not matter.
    expect(&Setup::ssk().word(0x808, 0x2000_0C10), REFUSED, 2);
    expect(&Setup::ssk().word(0x808, 0x3000_0C16), COMPLETED, 8);
    // Page 23 of 1M: its four leftmost bits are 2.
    expect(&Setup::ssk_1m().word(0x814, 0x1000_0C10), REFUSED, 2);
    expect(&Setup::ssk_1m().word(0x814, 0x2000_0C10), COMPLETED, 8);
}

#[test]
fn step_10_page_entry_format() {
    expect(&Setup::ssk().halfword(0xC16, 0x0012), REFUSED, 5);
    expect(&Setup::ssk().halfword(0xC16, 0x0014), REFUSED, 5);
    expect(&Setup::ssk().halfword(0xC16, 0x0011), COMPLETED, 8);
    // Format before the key block.
    expect(&Setup::ssk().halfword(0xC16, 0xFFF6), REFUSED, 5);
}

#[test]
fn step_11_invalid_page() {
    // 5 fields + store; key 2 untouched, swap bits kept, bits 13-14 and the frame do not matter.
    for page_entry in [0x0018, 0x001E, 0xFFFF, 0x0008] {
        let setup = Setup::ssk().key(2, 0x06).halfword(0xC16, page_entry).word(0xD18, 0xA5C3_FFFF);
        let ran = expect(&setup, COMPLETED, 6);
        assert_eq!(ran.kinds()[5..], [Store]);
        assert_eq!(ran.bytes, [(0xD1A, 0xFF, 0x3E)]);
        assert_eq!(ran.keys, [(0, 0x00, 0x04), (1, 0x00, 0x06)]);
    }
}

#[test]
fn step_11_key_bit_7_left_as_found() {
    for (old, low_byte, new) in
        [(0x01, 0x3F, 0x39), (0x00, 0x3F, 0x38), (0xFF, 0x00, 0x01), (0xFE, 0x00, 0x00), (0x01, 0xFE, 0xF9)]
    {
        let mut setup = Setup::ssk().key(2, old);
        setup.guest.general_registers[3] = low_byte;
        let keys = [(0, 0x00, 0x04), (1, 0x00, 0x06), (2, old, new)];
        assert_eq!(expect(&setup, COMPLETED, 8).keys, keys);
    }
}

#[test]
fn step_12_swap_word() {
    // Old key, address bit 20, swap word before and after; R1 low byte 3F.
    for (old_key, bit_20, before, after) in [
        (0x00, 0, 0x0000_0000, 0x0000_3E00),
        (0x02, 0, 0x0000_0000, 0x0400_3E00),
        (0x04, 0, 0x0000_0000, 0x0800_3E00),
        (0x06, 0, 0x0000_0000, 0x0C00_3E00),
        (0x00, 1, 0x0000_0000, 0x0000_003E),
        (0x02, 1, 0x0000_0000, 0x0100_003E),
        (0x04, 1, 0x0000_0000, 0x0200_003E),
        (0x06, 1, 0x0000_0000, 0x0300_003E),
        (0xF8, 0, 0xFFFF_FFFF, 0xFFFF_3EFF),
        (0xF9, 1, 0xFFFF_FFFF, 0xFFFF_FF3E),
        (0x04, 0, 0xF35A_A5C3, 0xFB5A_3EC3),
        (0x02, 1, 0xFC5A_A5C3, 0xFD5A_A53E),
    ] {
        let mut setup = Setup::ssk().key(2 + bit_20, old_key).word(0xD18, before);
        setup.guest.general_registers[4] = 0x0002_3000 | bit_20 << 11;
        let mut storage = setup.image.storage();
        let answer = setup.request().make(&mut storage, &mut setup.image.key_bytes());
        assert_eq!(answer.ending.number(), 0);
        assert_eq!(storage[0xD18..0xD1C], u32::to_be_bytes(after));
    }
}

#[test]
fn swap_word_goes_round_in_16_mib() {
    // Swap table at FFFFE6: the word is at FFFFE6 + 18 = FFFFFE.
    let setup = Setup::ssk().size(0x100_0000).key(2, 0x04).word(0xC0C, 0x00FF_FFE6);
    let ran = expect(&setup, COMPLETED, 8);
    assert_eq!(ran.named_bytes(3), &[0xFF_FFFE, 0xFF_FFFF, 0, 1]);
    assert_eq!(ran.named_bytes(7), &[0xFF_FFFE, 0xFF_FFFF, 0, 1]);
    assert_eq!(ran.bytes, [(0, 0, 0x3E), (0xFF_FFFE, 0, 0x08)]);
    // In less storage the same word is partly outside.
    expect(&setup.size(0x4000), not_in_storage(8), 3);
    // Swap table at FFFFF0 in 16 KiB: FFFFF0 + 18 = 000008.
    let ran = expect(&Setup::ssk().word(0xC0C, 0x00FF_FFF0), COMPLETED, 8);
    assert_eq!(ran.named_bytes(7), &[8, 9, 10, 11]);
}

#[test]
fn page_table_origin_0_in_16_mib() {
    let setup = Setup::ssk().size(0x100_0000).word(0x808, 0xF000_0000);
    let setup = setup.word(0xFF_FFFC, 0xD00).halfword(6, 0x0010);
    let ran = expect(&setup, COMPLETED, 8);
    assert_eq!(ran.named_bytes(2), &[0xFF_FFFC, 0xFF_FFFD, 0xFF_FFFE, 0xFF_FFFF]);
    assert_eq!(ran.named_bytes(4), &[6, 7]);
}

#[test]
fn segment_table_goes_round() {
    // Origin FFFFC0, address 123000: FFFFC0 + 48 = 000008.
    let mut setup = Setup::ssk().word(MICBLOK, 0xFFFF_FFC0).word(8, 0xF000_0C10);
    setup.guest.general_registers[4] = 0x0012_3000;
    assert_eq!(expect(&setup, COMPLETED, 8).named_bytes(1), &[8, 9, 10, 11]);
}
