//! The translation walk in the four formats, through SSM with DAT on.

mod common;

use common::*;
use second::setup::Setup;
use second::ReferenceKind::*;

/// Control register 0 bits 8-12, 4K pages, 1M segments.
const FORMATS: [(u32, bool, bool); 4] =
    [(0b01000, false, false), (0b01010, false, true), (0b10000, true, false), (0b10010, true, true)];

const INSTRUCTION: u32 = 0x52_A800;
const OPERAND: u32 = 0x52_C9AB;

/// SSM at 52A800 in frame 001000 (4K) or 001000 (2K: offset 0 of 800), operand 52C9AB.
/// All of it is in one segment: 52 (64K) or 5 (1M), with the page table at 3400.
fn ssm(format_bits: u32) -> Setup {
    let setup = Setup::ssm([0x04, 0x08], 0).dat(format_bits).operand(OPERAND);
    let pages_of_4k = format_bits & 0b10000 != 0;
    // Real places: frame base and the rest of the logical address.
    let (instruction, operand) = if pages_of_4k { (0x1800, 0x29AB) } else { (0x1000, 0x21AB) };
    let mut setup = setup.map(INSTRUCTION, instruction).map(OPERAND, operand);
    setup.image.put(operand, &[0x07]);
    setup.instruction(INSTRUCTION, instruction)
}

/// Segment entry and page entries of instruction and operand, worked out by hand.
/// 64K: entry at 3000 + 4 * 52; 1M: 3000 + 4 * 5. Page A or 15 (hex), page C or 19; 1M: 2A, 55, 2C, 59.
fn entries(pages_of_4k: bool, segments_of_1m: bool) -> (u32, u32, u32) {
    match (pages_of_4k, segments_of_1m) {
        (false, false) => (0x3148, 0x3400 + 2 * 0x15, 0x3400 + 2 * 0x19),
        (false, true) => (0x3014, 0x3400 + 2 * 0x55, 0x3400 + 2 * 0x59),
        (true, false) => (0x3148, 0x3400 + 2 * 0xA, 0x3400 + 2 * 0xC),
        (true, true) => (0x3014, 0x3400 + 2 * 0x2A, 0x3400 + 2 * 0x2C),
    }
}

#[test]
fn completes_in_every_format() {
    for (bits, pages_of_4k, segments_of_1m) in FORMATS {
        // MICCREG, register 0, halfword 4, operand byte 4, MICVPSW, virtual PSW, store.
        let ran = expect(&ssm(bits).key(4, 0x10).key(5, 0x20), COMPLETED, 13);
        assert_eq!(ran.kinds()[2..6], [SegmentEntry, PageEntry, KeyConsulted, InstructionHalfword]);
        assert_eq!(ran.kinds()[6..10], [SegmentEntry, PageEntry, KeyConsulted, OperandByte]);
        let (segment, instruction_page, operand_page) = entries(pages_of_4k, segments_of_1m);
        assert_eq!(ran.named_bytes(2), &[segment, segment + 1, segment + 2, segment + 3]);
        assert_eq!(ran.named_bytes(3), &[instruction_page, instruction_page + 1]);
        assert_eq!(ran.named_bytes(6), ran.named_bytes(2));
        assert_eq!(ran.named_bytes(7), &[operand_page, operand_page + 1]);
        let (halfword, byte) = if pages_of_4k { (0x1802, 0x29AB) } else { (0x1002, 0x21AB) };
        assert_eq!(ran.named_bytes(5), &[halfword, halfword + 1]);
        assert_eq!(ran.named_bytes(9), &[byte]);
        assert_eq!((ran.named_key(4), ran.named_key(8)), (Some(halfword / 0x800), Some(byte / 0x800)));
        assert_eq!(ran.bytes, [(0x600, 0x04, 0x07)]);
    }
}

#[test]
fn step_1_format() {
    for bits in 0..32 {
        let mut setup = ssm(0b10000);
        setup.guest.control_register_0 = bits << 19;
        let good = [0b01000, 0b01010, 0b10000, 0b10010].contains(&bits);
        let given = run(&setup).answer.ending;
        assert_eq!(given.code_or_step() == 18, !good);
        if !good {
            expect(&setup, SPECIFICATION, 2);
            // Format before length.
            setup.guest.control_register_1 &= 0x00FF_FFFF;
            expect(&setup, SPECIFICATION, 2);
        }
        // The other bits of control register 0 do not matter.
        let mut other_bits = setup.clone();
        other_bits.guest.control_register_0 |= 0xFF07_FFFF;
        assert_eq!(run(&other_bits).answer.ending, run(&setup).answer.ending);
    }
}

#[test]
fn step_2_segment_table_length() {
    for (bits, _, segments_of_1m) in FORMATS {
        // Address bits 8-11 are 5.
        let mut setup = ssm(bits);
        setup.guest.control_register_1 = 0x0500_3000;
        expect(&setup, COMPLETED, 13);
        for length in [4, 0] {
            setup.guest.control_register_1 = length << 24 | 0x3000;
            if segments_of_1m {
                expect(&setup, COMPLETED, 13);
            } else {
                expect(&setup, segment_translation(0x52_A802), 2);
            }
        }
    }
}

#[test]
fn step_3_segment_entry() {
    for (bits, pages_of_4k, segments_of_1m) in FORMATS {
        let (segment, _, _) = entries(pages_of_4k, segments_of_1m);
        let setup = ssm(bits);
        let mut outside = setup.clone();
        outside.guest.control_register_1 = 0xFF00_4000;
        expect(&outside, ADDRESSING, 2);
        expect(&setup.clone().word(segment, 0xF000_3401), segment_translation(0x52_A802), 3);
        for bit in [0x0800_0000, 0x0400_0000, 0x0200_0000, 0x0100_0000] {
            expect(&setup.clone().word(segment, 0xF000_3400 | bit), SPECIFICATION, 3);
            // Invalid before format; format before length.
            expect(&setup.clone().word(segment, 0xF000_3401 | bit), segment_translation(0x52_A802), 3);
            expect(&setup.clone().word(segment, 0x0000_3400 | bit), SPECIFICATION, 3);
        }
        // Bits 29 and 30 do not matter; control register 1 bits 26-31 do not matter.
        let mut other_bits = setup.word(segment, 0xF000_3406);
        other_bits.guest.control_register_1 |= 0x3F;
        expect(&other_bits, COMPLETED, 13);
    }
}

#[test]
fn step_4_page_table_length() {
    for (bits, pages_of_4k, segments_of_1m) in FORMATS {
        let (segment, _, _) = entries(pages_of_4k, segments_of_1m);
        let setup = ssm(bits);
        // Leftmost four bits: A and C (64K), 2 and 2 (1M).
        if segments_of_1m {
            expect(&setup.clone().word(segment, 0x1000_3400), page_translation(0x52_A802), 3);
            expect(&setup.clone().word(segment, 0x2000_3400), COMPLETED, 13);
        } else {
            expect(&setup.clone().word(segment, 0x9000_3400), page_translation(0x52_A802), 3);
            // The byte's own address is carried; 2 + 4 + segment entry.
            expect(&setup.clone().word(segment, 0xA000_3400), page_translation(OPERAND), 7);
            expect(&setup.clone().word(segment, 0xC000_3400), COMPLETED, 13);
        }
        // Length before the page entry: its table is not in storage.
        expect(&setup.word(segment, 0x0000_4000), page_translation(0x52_A802), 3);
    }
}

#[test]
fn step_5_page_entry() {
    for (bits, pages_of_4k, segments_of_1m) in FORMATS {
        let (segment, instruction_page, operand_page) = entries(pages_of_4k, segments_of_1m);
        let setup = ssm(bits);
        expect(&setup.clone().word(segment, 0xF000_4000), ADDRESSING, 3);
        let (frame, invalid) = if pages_of_4k { (0x0010, 0x0008) } else { (0x0010, 0x0004) };
        let entry = |value| setup.clone().halfword(instruction_page, value);
        expect(&entry(frame), COMPLETED, 13);
        expect(&entry(frame | invalid), page_translation(0x52_A802), 4);
        expect(&entry(frame | invalid | 0x0002), page_translation(0x52_A802), 4);
        expect(&entry(frame | 0x0002), SPECIFICATION, 4);
        // Bit 15 does not matter.
        expect(&entry(frame | 0x0001), COMPLETED, 13);
        if pages_of_4k {
            expect(&entry(frame | 0x0004), SPECIFICATION, 4);
            expect(&entry(frame | 0x000E), page_translation(0x52_A802), 4);
        }
        // The operand's page: 2 + 4 + segment entry + page entry.
        expect(&setup.clone().halfword(operand_page, invalid), page_translation(OPERAND), 8);
        expect(&setup.clone().halfword(operand_page, 0x0002), SPECIFICATION, 8);
    }
}

#[test]
fn real_address_outside_storage() {
    for (bits, pages_of_4k, segments_of_1m) in FORMATS {
        let (_, instruction_page, operand_page) = entries(pages_of_4k, segments_of_1m);
        // 0040 is frame 004000 in either format.
        expect(&ssm(bits).halfword(instruction_page, 0x0040), ADDRESSING, 4);
        expect(&ssm(bits).halfword(operand_page, 0xFFF0), ADDRESSING, 8);
    }
    // 2K pages: bit 12 belongs to the frame. 0038 is 003800, the last frame of 16 KiB.
    let (_, _, operand_page) = entries(false, false);
    let ran = run(&ssm(0b01000).halfword(operand_page, 0x0038));
    assert_eq!(ran.named_bytes(9), &[0x39AB]);
}

#[test]
fn second_halfword_in_the_next_segment_and_page() {
    for (bits, pages_of_4k, segments_of_1m) in FORMATS {
        // Instruction at 1FFFFE: the second halfword is at 200000, in another segment, page 0.
        let setup = ssm(bits).map(0x20_0000, 0x1000).instruction(0x1F_FFFE, 0xFFE);
        let table = if segments_of_1m { 0x3008 } else { 0x3080 };
        expect(&setup, COMPLETED, 13);
        expect(&setup.clone().word(table, 0xF000_3801), segment_translation(0x20_0000), 3);
        let invalid = if pages_of_4k { 0x0018 } else { 0x0014 };
        expect(&setup.clone().halfword(0x3800, invalid), page_translation(0x20_0000), 4);
    }
}

#[test]
fn segment_table_goes_round() {
    // 64K, origin FFFFC0: segment 12 (hex) is at FFFFC0 + 48 = 000008.
    let mut setup = ssm(0b10000).instruction(0x12_A800, 0x1800).operand(0x12_C9AB);
    setup.guest.control_register_1 = 0xFFFF_FFC0;
    let setup = setup.word(8, 0xF000_3400);
    let ran = expect(&setup, COMPLETED, 13);
    assert_eq!(ran.named_bytes(2), &[8, 9, 10, 11]);
    // Page table at FFFFF8: page A is at FFFFF8 + 14 = 00000C, page C at 000010.
    let setup = setup.word(8, 0xF0FF_FFF8).halfword(0xC, 0x0010).halfword(0x10, 0x0020);
    let ran = expect(&setup, COMPLETED, 13);
    assert_eq!((ran.named_bytes(3), ran.named_bytes(7)), (&[0xC, 0xD][..], &[0x10, 0x11][..]));
}
