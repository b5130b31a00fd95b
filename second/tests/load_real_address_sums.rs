//! LRA: the second-operand address, registers, and sums that go round 2^24 (documents 01 and 02, R-9). Virtual and real
//! 4K pages and 64K segments but where it says otherwise.

mod common;

use common::*;
use second::setup::{Setup, ECBLOK, MICBLOK};

fn loads_into(setup: &Setup, number: usize, word: u32) -> Ran {
    expect_set(setup, COMPLETED, 12, Set::RegisterAndCode(number, word, 0))
}

fn loads(setup: &Setup, count: usize, register_3: u32, code: u32) -> Ran {
    expect_set(setup, COMPLETED, count, Set::RegisterAndCode(3, register_3, code))
}

/// Tables for the virtual page 000000: segment 0, page 0, frame ABC.
fn with_page_0(setup: Setup) -> Setup {
    setup.word(0x2840, 0x0005_6D08).halfword(0x1D08, 0xABC0)
}

/// First and second halfword, registers 0, 2, 5 and 15: base, index and displacement come to 345E78.
#[test]
fn base_and_index() {
    for (first, second, registers) in [
        (0xB130, 0x2010, [0x5A11_1111, 0x5A34_5E68, 0x5A77_7777, 0x5A88_8888]),
        (0xB135, 0x2010, [0x5A11_1111, 0x5A22_2A18, 0xA512_3450, 0x5A88_8888]),
        (0xB135, 0x2FFF, [0x5A11_1111, 0x0000_0000, 0x0034_4E79, 0x5A88_8888]),
        // 345E68 is twice 1A2F34.
        (0xB132, 0x2010, [0x5A11_1111, 0xFF1A_2F34, 0x5A77_7777, 0x5A88_8888]),
        (0xB13F, 0x2010, [0x5A11_1111, 0x5A22_2A18, 0x5A77_7777, 0xA512_3450]),
        (0xB130, 0xF010, [0x5A11_1111, 0x5A77_7777, 0x5A88_8888, 0x5A34_5E68]),
        (0xB13F, 0xF010, [0x5A11_1111, 0x5A77_7777, 0x5A88_8888, 0x5A1A_2F34]),
        // Base 0 means zero, as index 0 does.
        (0xB135, 0x0010, [0x5A11_1111, 0x5A77_7777, 0x5A34_5E68, 0x5A88_8888]),
        (0xB135, 0x0000, [0x5A11_1111, 0x5A77_7777, 0x5A34_5E78, 0x5A88_8888]),
    ] {
        let setup = Setup::lra().first_halfword(first).halfword(0x1002, second);
        let [r0, r2, r5, r15] = registers;
        loads_into(&setup.register(0, r0).register(2, r2).register(5, r5).register(15, r15), 3, 0x00AB_CE78);
    }
    // Neither base nor index: displacement E78.
    let setup = with_page_0(Setup::lra()).halfword(0x1002, 0x0E78).register(0, 0x5A11_1111);
    loads_into(&setup, 3, 0x00AB_CE78);
}

/// Sums modulo 2^24: bits 0-7 of either register do not matter, nor does what they would carry.
#[test]
fn sums_of_base_and_index() {
    for (base, index, second, byte) in [
        (0xFFFF_FFFF, 0x0000_0000, 0x2001, 0x000),
        (0x0000_0000, 0xFFFF_FFFF, 0x2FFF, 0xFFE),
        (0xFFFF_FFFF, 0xFFFF_FFFF, 0x2FFF, 0xFFD),
        (0x5A80_0000, 0xA580_0000, 0x2123, 0x123),
    ] {
        let setup = with_page_0(Setup::lra()).first_halfword(0xB135).halfword(0x1002, second);
        loads_into(&setup.register(2, base).register(5, index), 3, 0x00AB_C000 | byte);
    }
}

/// R1 may be base or index: the address is taken before. R1 = 0 is register 0.
#[test]
fn result_register() {
    for number in 0..16 {
        let setup = Setup::lra().first_halfword(0xB100 | number << 4);
        loads_into(&setup.register(0, 0x5A11_1111), usize::from(number), 0x00AB_CE78);
    }
    let both = Setup::lra().register(2, 0x5A22_2A18).register(5, 0xA512_3450);
    loads_into(&both.clone().first_halfword(0xB155), 5, 0x00AB_CE78);
    loads_into(&both.first_halfword(0xB125), 2, 0x00AB_CE78);
    let all_15 = Setup::lra().first_halfword(0xB1FF).halfword(0x1002, 0xF010).register(15, 0x5A1A_2F34);
    loads_into(&all_15, 15, 0x00AB_CE78);
}

/// Virtual segment table at FFFFC0: its entry 34 is at 000090. Real segment 0 has its page 0 in frame 002.
#[test]
fn virtual_segment_entry_goes_round() {
    let setup = Setup::lra().word(ECBLOK + 4, 0x03FF_FFC0).halfword(0xD00, 0x0020);
    let ran = loads(&setup.clone().word(0x2090, 0x5005_6D08), 12, 0x00AB_CE78, 0);
    assert_eq!([6, 7, 8].map(|entry| ran.named_bytes(entry)[0]), [0x800, 0xD00, 0x2090]);
    loads(&setup.clone().word(0x2090, 0x5005_6D09), 9, 0x0000_0090, 1);
    loads(&setup.clone().word(ECBLOK + 4, 0x02FF_FFC0), 6, 0x0000_0090, 3);
    // 1M: entry 3 is at FFFFCC, below the top; real segment FF, page F.
    let below = setup.word(ECBLOK, 0x0090_0000).word(MICBLOK, 0x0F00_0800).word(0xBFC, 0xF000_0C10);
    let below = below.halfword(0xC2E, 0x0020).word(0x2FCC, 0x4005_6D09);
    loads(&below, 9, 0x00FF_FFCC, 1);
    // Bits 26-31 of virtual control register 1 do not matter.
    loads(&Setup::lra().word(ECBLOK + 4, 0x0312_387F), 12, 0x00AB_CE78, 0);
}

/// Virtual page table at FFFFF8: its entry 5 is at 000002.
#[test]
fn virtual_page_entry_goes_round() {
    let setup = Setup::lra().word(0x2910, 0x50FF_FFF8).halfword(0xD00, 0x0020);
    let ran = loads(&setup.clone().halfword(0x2002, 0xABC0), 12, 0x00AB_CE78, 0);
    assert_eq!([9, 10, 11].map(|entry| ran.named_bytes(entry)[0]), [0x800, 0xD00, 0x2002]);
    loads(&setup.clone().halfword(0x2002, 0xABC8), 12, 0x0000_0002, 2);
    loads(&setup.word(0x2910, 0x40FF_FFF8), 9, 0x0000_0002, 3);
}

/// Real tables round the top: segment table at FFFFC0, entries 12 and 13 at 000008 and 00000C; page tables at FFFFF8,
/// 2K entries 7 and 0D at 000006 and 000012.
#[test]
fn real_entries_go_round() {
    let segments = Setup::lra().word(MICBLOK, 0x01FF_FFC0).word(0x0008, 0x3000_0C10);
    let ran =
        loads(&segments.clone().word(0x000C, 0x6000_0D00).word(0x2910, 0x5013_6D08), 12, 0x00AB_CE78, 0);
    assert_eq!((ran.named_bytes(6)[0], ran.named_bytes(9)[0]), (0x0008, 0x000C));
    // Entry 5 is at FFFFD4.
    expect(&segments, not_in_storage(7), 9);
    let pages = Setup::lra().word(MICBLOK, 0x0100_0802).word(0x848, 0x30FF_FFF8).word(0x814, 0x60FF_FFF8);
    let ran = loads(&pages.halfword(0x0006, 0x0028).halfword(0x0012, 0x0018), 12, 0x00AB_CE78, 0);
    assert_eq!((ran.named_bytes(7), ran.named_bytes(10)), (&[6, 7][..], &[0x12, 0x13][..]));
    // 4K: entry 3 at FFFFFE is not in storage, entry 6 at 000004 is.
    expect(&Setup::lra().word(0x848, 0x30FF_FFF8), not_in_storage(6), 7);
    loads(&Setup::lra().word(0x814, 0x60FF_FFF8).halfword(0x0004, 0x0010), 12, 0x00AB_CE78, 0);
}

/// 16 MiB: a virtual control register round the top, an instruction at FFFFFE, virtual entries in frame FFF.
#[test]
fn in_16_mib() {
    let large = || Setup::lra().size(0x100_0000);
    let setup =
        large().word(MICBLOK + 4, 0x00FF_FFFA).word(0xFF_FFFA, 0x0080_0000).word(0xFF_FFFE, 0x0312_3840);
    let ran = loads(&setup, 12, 0x00AB_CE78, 0);
    assert_eq!(ran.named_bytes(3), &[0xFF_FFFE, 0xFF_FFFF, 0, 1]);
    assert!(ran.keys.contains(&(0x1FFF, 0x00, 0x04)));
    let setup = large().word(MICBLOK + 4, 0x00FF_FFFC).word(0xFF_FFFC, 0x0080_0000).word(0, 0x0312_3840);
    assert_eq!(loads(&setup, 12, 0x00AB_CE78, 0).named_bytes(3), &[0, 1, 2, 3]);
    let setup = large().instruction(0xCDFF_FFFE, 0xFF_FFFE).halfword(0, 0x2010);
    let ran = loads(&setup, 12, 0x00AB_CE78, 0);
    assert_eq!((ran.named_bytes(5), ran.answer.guest.psw_32_63), (&[0, 1][..], 0xCD00_0002));
    let setup = large().halfword(0xC16, 0xFFF0).halfword(0xD0C, 0xFFF0).word(0xFF_F910, 0x5005_6D08);
    let ran = loads(&setup.halfword(0xFF_FD12, 0xFFF0), 12, 0x00FF_FE78, 0);
    assert_eq!((ran.named_bytes(8)[0], ran.named_bytes(11)[0]), (0xFF_F910, 0xFF_FD12));
}
