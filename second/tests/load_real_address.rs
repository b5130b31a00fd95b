//! LRA, step by step (document 002, with Figure 9). MICRSEG (400), MICCREG (404) and the virtual control registers
//! (500, 504) are in block 0, the real tables in block 1, the second halfword (1002) in block 2, the virtual page
//! table in block 3, the virtual segment table in block 5. The virtual address is 345E78.

mod common;

use common::*;
use second::setup::{Setup, ECBLOK, MICBLOK};
use second::ReferenceKind::*;

/// Register 3 and the condition code.
fn loads(setup: &Setup, count: usize, register_3: u32, code: u32) -> Ran {
    expect_set(setup, COMPLETED, count, Set::RegisterAndCode(3, register_3, code))
}

/// Code 0: frame ABC, byte index E78. Four fields, the halfword's two entries, three for each walk.
fn completes(setup: &Setup) -> Ran {
    loads(setup, 12, 0x00AB_CE78, 0)
}

#[test]
fn list_of_references() {
    let ran = completes(&Setup::lra());
    assert_eq!(ran.kinds()[..4], [ControlField, ControlField, VirtualRegister, VirtualRegister]);
    assert_eq!(ran.kinds()[4..6], [KeyConsulted, InstructionHalfword]);
    assert_eq!(ran.kinds()[6..9], [ControlField, ControlField, SegmentEntry]);
    assert_eq!(ran.kinds()[9..], [ControlField, ControlField, PageEntry]);
    // Steps 2, 3 and 5: doublewords are two words, left first.
    assert_eq!(ran.named_bytes(0), &[0x400, 0x401, 0x402, 0x403]);
    assert_eq!(ran.named_bytes(1), &[0x404, 0x405, 0x406, 0x407]);
    assert_eq!(ran.named_bytes(2), &[0x500, 0x501, 0x502, 0x503]);
    assert_eq!(ran.named_bytes(3), &[0x504, 0x505, 0x506, 0x507]);
    assert_eq!((ran.named_key(4), ran.named_bytes(5)), (Some(2), &[0x1002, 0x1003][..]));
    // Steps 8, 10 and 12: 123840 + 4 * 34 = 123910 is in segment 12, page 3.
    assert_eq!(ran.named_bytes(6), &[0x848, 0x849, 0x84A, 0x84B]);
    assert_eq!(ran.named_bytes(7), &[0xC16, 0xC17]);
    assert_eq!(ran.named_bytes(8), &[0x2910, 0x2911, 0x2912, 0x2913]);
    // Steps 17, 19 and 21: 056D08 + 2 * 5 = 056D12 is in segment 5, page 6.
    assert_eq!(ran.named_bytes(9), &[0x814, 0x815, 0x816, 0x817]);
    assert_eq!(ran.named_bytes(10), &[0xD0C, 0xD0D]);
    assert_eq!(ran.named_bytes(11), &[0x1D12, 0x1D13]);
    assert_eq!(ran.bytes, []);
    assert_eq!(ran.keys, [0, 1, 2, 3, 5].map(|block| (block, 0x00, 0x04)));
}

/// With DAT on the halfword's segment and page entry more: the longest list, 14. The real control registers are for
/// the halfword alone, in whatever format.
#[test]
fn list_of_references_with_dat() {
    for bits in [0b01000, 0b01010, 0b10000, 0b10010] {
        let mut setup = Setup::lra().dat(bits).map(0x1000, 0x1000);
        let (segment_entry, page_entry) = setup.entry_addresses(0x1000);
        let ran = loads(&setup, 14, 0x00AB_CE78, 0);
        assert_eq!(ran.kinds()[4..8], [SegmentEntry, PageEntry, KeyConsulted, InstructionHalfword]);
        assert_eq!((ran.named_bytes(4)[0], ran.named_bytes(5)[0]), (segment_entry, page_entry));
        assert_eq!((ran.named_bytes(8)[0], ran.named_bytes(13)[0]), (0x848, 0x1D12));
    }
}

#[test]
fn step_1() {
    for bits_0_3 in 0..16 {
        let setup = Setup::lra().control_register_6(bits_0_3 << 28 | 0x0F00_0007 | MICBLOK);
        if [0b1000, 0b1010].contains(&bits_0_3) {
            completes(&setup);
        } else {
            expect(&setup, REFUSED, 0);
        }
    }
    expect(&Setup::lra().control_register_6(0x9000_4000), REFUSED, 0);
}

/// Places: MICRSEG 1, virtual control registers 3 and 4, real segment and page entry 5 and 6, then 7 and 8. MICCREG,
/// place 2, is in one doubleword with MICRSEG, and storage ends on a block: it cannot be the first that is missing.
#[test]
fn ending_3_carries_the_place() {
    let lra = Setup::lra;
    expect(&lra().control_register_6(0x8000_4000), not_in_storage(1), 0);
    expect(&lra().control_register_6(0x80FF_FFF8), not_in_storage(1), 0);
    let last = lra().control_register_6(0x8000_3FF8).word(0x3FF8, 0x0100_0800).word(0x3FFC, 0x0000_0500);
    completes(&last);
    for (ecblok, place) in
        [(0x4000, 3), (0x3FFD, 3), (0x3FFF, 3), (0x3FFC, 4), (0x3FF9, 4), (0xFF_FFFC, 3), (0xFF_FFFF, 3)]
    {
        expect(&lra().word(MICBLOK + 4, 0xA500_0000 | ecblok), not_in_storage(place), place as usize - 1);
    }
    let ends_at_4000 = lra().word(MICBLOK + 4, 0xA500_3FF8).word(0x3FF8, 0x0080_0000);
    completes(&ends_at_4000.word(0x3FFC, 0x0312_3840));
    // The halfword's two entries have no place: 6 entries before place 5, one field each, the virtual entry between.
    expect(&lra().word(MICBLOK, 0x0100_4000), not_in_storage(5), 6);
    expect(&lra().word(0x848, 0x3000_4000), not_in_storage(6), 7);
    // Segment 12 at 3F80 + 48 = 3FC8, segment 20 at 4000.
    let second = lra().word(MICBLOK, 0x0200_3F80).word(0x3FC8, 0x3000_0C10).word(0x2910, 0x5020_6D08);
    expect(&second, not_in_storage(7), 9);
    expect(&lra().word(0x814, 0x6000_4000), not_in_storage(8), 10);
    let with_dat = |setup: Setup| setup.dat(0b10000).map(0x1000, 0x1000);
    expect(&with_dat(lra().word(MICBLOK, 0x0100_4000)), not_in_storage(5), 8);
    expect(&with_dat(lra().word(0x814, 0x6000_4000)), not_in_storage(8), 12);
}

/// A virtual table entry has no place: refused.
#[test]
fn virtual_entries_not_in_storage() {
    for frame in [0x0040, 0x0FF0, 0xFFF0] {
        expect(&Setup::lra().halfword(0xC16, frame), REFUSED, 8);
        expect(&Setup::lra().halfword(0xD0C, frame), REFUSED, 11);
        // 2K: C1E and D1A.
        let real_2k = Setup::lra().word(MICBLOK, 0x0100_0802);
        expect(&real_2k.clone().halfword(0xC1E, frame), REFUSED, 8);
        expect(&real_2k.halfword(0xD1A, frame), REFUSED, 11);
    }
    // Storage that ends before the virtual segment entry (2910), and before the virtual page entry.
    completes(&Setup::lra().size(0x3000));
    expect(&Setup::lra().size(0x2800), REFUSED, 8);
    let page_table_in_3000 = Setup::lra().halfword(0xD0C, 0x0030).halfword(0x3D12, 0xABC0);
    completes(&page_table_in_3000);
    expect(&page_table_in_3000.size(0x3800), REFUSED, 11);
}

/// Step 4 comes after steps 2 and 3, before step 5. Bits 8-12 alone.
#[test]
fn step_4() {
    for bits in 0..32 {
        let register_0 = bits << 19 | 0xFF07_FFFF;
        let setup = Setup::lra().word(ECBLOK, register_0);
        let outside = setup.clone().instruction(0x3FFE, 0x3FFE);
        match bits {
            0b01000 => loads(&setup, 12, 0x0056_7E78, 0),
            0b01010 => loads(&setup, 12, 0x009A_B678, 0),
            0b10000 => loads(&setup, 12, 0x00AB_CE78, 0),
            0b10010 => loads(&setup, 12, 0x0012_3E78, 0),
            _ => expect(&setup, REFUSED, 4),
        };
        let right = [0b01000, 0b01010, 0b10000, 0b10010].contains(&bits);
        expect(&outside, if right { ADDRESSING } else { REFUSED }, 4);
        let register_1_outside = Setup::lra().word(MICBLOK + 4, 0x3FFC).word(0x3FFC, register_0);
        expect(&register_1_outside, not_in_storage(4), 3);
    }
    expect(&Setup::lra().word(ECBLOK, 0).word(MICBLOK, 0x0100_4000), REFUSED, 4);
}

/// The four formats of the second halfword: 16, 17, 18 and 5 by the tables, 5 and 4 by the real address and its key.
#[test]
fn step_5_exceptions_as_themselves() {
    for (bits, page_invalid, page_format) in [
        (0b01000, 0x0004, 0x0002),
        (0b01010, 0x0004, 0x0002),
        (0b10000, 0x0008, 0x0004),
        (0b10010, 0x0008, 0x0004),
    ] {
        let setup = Setup::lra().dat(bits).map(0x1000, 0x1000);
        let (_, page_entry) = setup.clone().entry_addresses(0x1000);
        let frame = (setup.image.word(page_entry) >> 16) as u16;
        let mut wrong_format = setup.clone();
        wrong_format.guest.control_register_0 |= 0x0020_0000;
        expect(&wrong_format, SPECIFICATION, 4);
        expect(&setup.clone().word(0x3000, 0xF000_3401), segment_translation(0x1002), 5);
        expect(&setup.clone().word(0x3000, 0xF100_3400), SPECIFICATION, 5);
        expect(&setup.clone().word(0x3000, 0xF000_4000), ADDRESSING, 5);
        expect(&setup.clone().halfword(page_entry, frame | page_invalid), page_translation(0x1002), 6);
        expect(&setup.clone().halfword(page_entry, frame | page_format), SPECIFICATION, 6);
        expect(&setup.clone().halfword(page_entry, 0x4000), ADDRESSING, 6);
        expect(&setup.psw_key(1).key(2, 0x28), PROTECTION, 7);
    }
}

/// Step 5 comes before the walk: the real segment table is not looked at.
#[test]
fn step_5_before_the_walk() {
    let outside = Setup::lra().instruction(0x3FFE, 0x3FFE);
    expect(&outside, ADDRESSING, 4);
    expect(&outside.clone().word(MICBLOK, 0x0100_4000), ADDRESSING, 4);
    expect(&outside.word(ECBLOK + 4, 0x0212_3840), ADDRESSING, 4);
    expect(&Setup::lra().psw_key(1).key(2, 0x28), PROTECTION, 5);
}

/// "With a key of zero": only the second halfword is protected by its key. Nothing is recorded beyond what is read.
#[test]
fn only_the_halfword_is_protected() {
    let mut setup = Setup::lra().psw_key(1).low_address_protection();
    for block in 0..8 {
        setup = setup.key(block, 0x2B);
    }
    expect(&setup, PROTECTION, 5);
    let ran = completes(&setup.key(2, 0x18));
    let read = [(0, 0x2B, 0x2F), (1, 0x2B, 0x2F), (2, 0x18, 0x1C), (3, 0x2B, 0x2F), (5, 0x2B, 0x2F)];
    assert_eq!(ran.keys, read);
}

/// R1 and the condition code are set on completion only: `expect` holds the rest of the record.
#[test]
fn record() {
    for (others, code) in [(0x0000_0000, 0), (0xFB06_CFFF, 3), (0x0000_0000, 2), (0xFB06_CFFF, 1)] {
        let mut setup = Setup::lra().register(3, 0xFFFF_FFFF);
        setup.guest.psw_0_31 = others | 0x0009_0000 | code << 12;
        setup.guest.psw_32_63 = 0xCD00_1000;
        let record = completes(&setup).answer.guest;
        assert_eq!((record.psw_0_31, record.psw_32_63), (others | 0x0009_0000, 0xCD00_1004));
        assert_eq!(record.general_registers[3], 0x00AB_CE78);
        let codes = [
            (setup.clone().word(0x2910, 0x5005_6D09), 9, 0x0012_3910, 1),
            (setup.clone().halfword(0x1D12, 0xABC8), 12, 0x0005_6D12, 2),
            (setup.clone().word(0x504, 0x0212_3840), 6, 0x0012_3910, 3),
        ];
        for (setup, count, register_3, new) in codes {
            let record = loads(&setup, count, register_3, new).answer.guest;
            assert_eq!(record.psw_0_31, others | 0x0009_0000 | new << 12);
        }
    }
}

/// 10, 11, 12 and 9, in this order, and before step 1.
#[test]
fn endings_before_the_steps() {
    let mut setup = Setup::lra().control_register_6(0);
    setup.guest.psw_0_31 &= !0x0008_0000;
    expect(&setup, (9, 0, 0), 0);
    setup.guest.psw_0_31 = setup.guest.psw_0_31 & !0x0001_0000 | 0x0008_0000;
    expect(&setup, (9, 0, 0), 0);
    setup.guest.psw_32_63 |= 1;
    expect(&setup, (12, 0, 0), 0);
    setup.image.key_count += 1;
    expect(&setup, (11, 0, 0), 0);
    setup.image.storage_size += 1;
    expect(&setup, (10, 0, 0), 0);
}
