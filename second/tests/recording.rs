//! Reference and change recording (document 02, R-13): one access by itself, then within the instructions.

mod common;

use common::*;
use second::machine::Machine;
use second::setup::{Setup, MICBLOK, VIRTUAL_EC};
use second::{Reference, ReferenceKind};

/// One access on storage of this size with keys of 00; gives the keys that are not 00 afterwards.
fn recorded(size: usize, access: impl FnOnce(&mut Machine<Vec<Reference>>)) -> Vec<(usize, u8)> {
    let (mut storage, mut keys) = (vec![0; size], vec![0; size / 2_048]);
    access(&mut Machine::new(&mut storage, &mut keys, Vec::new()));
    keys.into_iter().enumerate().filter(|&(_, key)| key != 0).collect()
}

fn fetched<const N: usize>(size: usize, address: u32) -> Vec<(usize, u8)> {
    recorded(size, |machine| {
        let bytes = machine.fetch::<N>(ReferenceKind::ControlField, address);
        assert_eq!(bytes.is_some() as usize, machine.references.len());
    })
}

fn stored<const N: usize>(size: usize, address: u32) -> Vec<(usize, u8)> {
    recorded(size, |machine| machine.store(address, [0; N]))
}

#[test]
fn a_fetch_within_a_block() {
    assert_eq!(fetched::<4>(0x4000, 0x7FC), [(0, 0x04)]);
    assert_eq!(fetched::<4>(0x4000, 0x800), [(1, 0x04)]);
    assert_eq!(fetched::<2>(0x4000, 0x7FE), [(0, 0x04)]);
    assert_eq!(fetched::<1>(0x4000, 0x7FF), [(0, 0x04)]);
    assert_eq!(fetched::<1>(0x4000, 0x3800), [(7, 0x04)]);
    assert_eq!(fetched::<4>(0x4000, 0x3FFC), [(7, 0x04)]);
    assert_eq!(fetched::<4>(0x800, 0), [(0, 0x04)]);
}

#[test]
fn a_fetch_across_a_boundary() {
    for address in [0x17FD, 0x17FE, 0x17FF] {
        assert_eq!(fetched::<4>(0x4000, address), [(2, 0x04), (3, 0x04)]);
    }
    assert_eq!(fetched::<2>(0x4000, 0x17FF), [(2, 0x04), (3, 0x04)]);
}

#[test]
fn a_fetch_round_the_top() {
    for address in [0xFF_FFFD, 0xFF_FFFE, 0xFF_FFFF] {
        assert_eq!(fetched::<4>(0x100_0000, address), [(0, 0x04), (8_191, 0x04)]);
    }
    assert_eq!(fetched::<2>(0x100_0000, 0xFF_FFFF), [(0, 0x04), (8_191, 0x04)]);
    assert_eq!(fetched::<4>(0x100_0000, 0xFF_FFFC), [(8_191, 0x04)]);
    assert_eq!(fetched::<4>(0x100_0000, 0), [(0, 0x04)]);
}

#[test]
fn a_fetch_of_an_item_not_wholly_in_storage() {
    for address in [0x3FFD, 0x3FFE, 0x3FFF, 0x4000, 0xFF_FFFC, 0xFF_FFFD, 0xFF_FFFF] {
        assert_eq!(fetched::<4>(0x4000, address), []);
    }
    assert_eq!(fetched::<2>(0x4000, 0x3FFF), []);
    assert_eq!(fetched::<1>(0x4000, 0x4000), []);
    // One block short of 16 MiB.
    assert_eq!(fetched::<4>(0xFF_F800, 0xFF_FFFE), []);
}

#[test]
fn a_store() {
    assert_eq!(stored::<4>(0x4000, 0x7FC), [(0, 0x06)]);
    assert_eq!(stored::<1>(0x4000, 0x3FFF), [(7, 0x06)]);
    assert_eq!(stored::<4>(0x4000, 0x17FD), [(2, 0x06), (3, 0x06)]);
    assert_eq!(stored::<4>(0x4000, 0x17FF), [(2, 0x06), (3, 0x06)]);
    assert_eq!(stored::<4>(0x100_0000, 0xFF_FFFE), [(0, 0x06), (8_191, 0x06)]);
}

#[test]
fn entries_for_keys_and_looking_for_an_item_record_nothing() {
    let keys = recorded(0x4000, |machine| {
        assert!(machine.contains::<4>(0x1000));
        assert_eq!(machine.consult_key(0x1800), 0x00);
        machine.set_key(0x2000, 0x50);
        assert_eq!(machine.references.len(), 2);
    });
    assert_eq!(keys, [(4, 0x50)]);
}

/// Every key: only bit 5 is set by a fetch, only bits 5 and 6 by a store; both blocks of an item have their own.
#[test]
fn the_other_bits_of_a_key_stay() {
    for key in 0..=0xFF {
        let mut storage = [0; 0x1000];
        let mut keys = [key, !key];
        Machine::new(&mut storage, &mut keys, 0).fetch::<4>(ReferenceKind::SegmentEntry, 0x7FE);
        assert_eq!(keys.map(|key| key & 0x04), [0x04, 0x04]);
        assert_eq!(keys.map(|key| key & 0xFB), [key & 0xFB, !key & 0xFB]);
        let mut keys = [key, !key];
        Machine::new(&mut storage, &mut keys, 0).store(0x7FE, [0; 4]);
        assert_eq!(keys.map(|key| key & 0x06), [0x06, 0x06]);
        assert_eq!(keys.map(|key| key & 0xF9), [key & 0xF9, !key & 0xF9]);
    }
}

/// The three right bits before, after a fetch, after a store.
#[test]
fn eight_combinations_of_right_bits() {
    for (before, fetched, stored) in [
        (0x00, 0x04, 0x06),
        (0x01, 0x05, 0x07),
        (0x02, 0x06, 0x06),
        (0x03, 0x07, 0x07),
        (0x04, 0x04, 0x06),
        (0x05, 0x05, 0x07),
        (0x06, 0x06, 0x06),
        (0x07, 0x07, 0x07),
    ] {
        // STCTL: fields in block 0, second halfword in block 2, operand in block 4.
        let setup = Setup::stctl(5, 5).key(0, 0xA8 | before).key(2, 0x50 | before).key(4, 0xF0 | before);
        let (mut storage, mut keys) = (setup.image.storage(), setup.image.key_bytes());
        setup.request().make(&mut storage, &mut keys);
        assert_eq!(keys, [0xA8 | fetched, 0, 0x50 | fetched, 0, 0xF0 | stored, 0, 0, 0]);
    }
}

#[test]
fn nothing_is_recorded_before_the_first_entry() {
    assert_eq!(expect(&Setup::stctl(5, 5).control_register_6(MICBLOK), REFUSED, 0).keys, []);
    assert_eq!(expect(&Setup::ssk().control_register_6(0x8000_4000), not_in_storage(2), 0).keys, []);
    let mut odd = Setup::ssm([0x04, VIRTUAL_EC], 0x07);
    odd.guest.psw_32_63 += 1;
    assert_eq!(expect(&odd, (12, 0, 0), 0).keys, []);
}

/// SSM with one item after the other not to be had: what was recorded before stays.
#[test]
fn what_was_recorded_before_an_ending_stays() {
    let ssm = Setup::ssm([0x04, VIRTUAL_EC], 0x07).key(0, 0x02);
    // MICCREG alone, register 0 in block 3 not there; then with register 0.
    assert_eq!(expect(&ssm.clone().word(MICBLOK + 4, 0x4000), not_in_storage(3), 1).keys, [(0, 0x02, 0x06)]);
    let register = ssm.clone().word(MICBLOK + 4, 0x1800).word(0x1800, 0x4000_0000);
    assert_eq!(expect(&register, REFUSED, 2).keys, [(0, 0x02, 0x06), (3, 0x00, 0x04)]);
    // The halfword is protected: its key is consulted, its block not read. Then the operand likewise.
    let halfword = ssm.clone().psw_key(1).key(2, 0x28);
    assert_eq!(expect(&halfword, PROTECTION, 3).keys, [(0, 0x02, 0x06)]);
    let operand = ssm.clone().psw_key(1).key(4, 0x29);
    assert_eq!(expect(&operand, PROTECTION, 5).keys, [(0, 0x02, 0x06), (2, 0x00, 0x04)]);
    // New 84: all has been read, nothing is stored; handed over, or refused as bit 6 is zero.
    let expanded = Setup::ssm([0x04, VIRTUAL_EC], 0x84).expanded();
    let keys = [(0, 0x00, 0x04), (2, 0x00, 0x04), (4, 0x00, 0x04)];
    assert_eq!(expect(&expanded, REFUSED, 8).keys, keys);
    assert_eq!(expect(&expanded.switched_on(), EXPANDED, 8).keys, keys);
}

/// DAT on, 2K pages: segment table in block 6 (3000), page table in block 7 (3800).
fn translated(setup: Setup) -> Setup {
    let setup = setup.dat(0b01000).word(0x3000, 0xF000_3800);
    // Pages 2, 4 and 5 (1000, 2000, 2800) in their own frames.
    setup.halfword(0x3804, 0x0010).halfword(0x3808, 0x0020).halfword(0x380A, 0x0028)
}

#[test]
fn table_entries_are_read() {
    // Segment entry not valid: the page table is not read.
    let setup = translated(Setup::stctl(5, 5));
    let ran = expect(&setup.clone().word(0x3000, 0xF000_3801), segment_translation(0x1002), 2);
    assert_eq!(ran.keys, [(0, 0x00, 0x04), (6, 0x00, 0x04)]);
    // Page entry not valid: both tables are read, the halfword is not.
    let ran = expect(&setup.clone().halfword(0x3804, 0x0014), page_translation(0x1002), 3);
    assert_eq!(ran.keys, [(0, 0x00, 0x04), (6, 0x00, 0x04), (7, 0x00, 0x04)]);
    // STNSM step 5 refuses, and what the failing access read stays.
    let stnsm = translated(Setup::stnsm([0x07, VIRTUAL_EC], 0xFC)).halfword(0x3804, 0x0014);
    assert_eq!(expect(&stnsm, REFUSED, 4).keys, [(0, 0x00, 0x04), (6, 0x00, 0x04), (7, 0x00, 0x04)]);
}

/// The test's table fetches record, the blocks that it finds do not, unless they are stored in afterwards.
#[test]
fn a_store_test_records_what_it_fetches_only() {
    // STCTL, words at 27FC (block 4) and 2800 (block 5), the second protected.
    let setup = translated(Setup::stctl(6, 7).operand(0x27FC)).psw_key(1).key(4, 0x10).key(5, 0x20);
    let tested = [(0, 0x00, 0x04), (2, 0x00, 0x04), (6, 0x00, 0x04), (7, 0x00, 0x04)];
    assert_eq!(expect(&setup, PROTECTION, 13).keys, tested);
    let stored = [(0, 0, 0x04), (2, 0, 0x04), (4, 0x10, 0x16), (5, 0x10, 0x16), (6, 0, 0x04), (7, 0, 0x04)];
    assert_eq!(expect(&setup.key(5, 0x10), COMPLETED, 15).keys, stored);
    // STNSM and STOSM, operand at 2000 (block 4).
    for setup in [Setup::stnsm([0x07, VIRTUAL_EC], 0xFC), Setup::stosm([0x04, VIRTUAL_EC], 0x03)] {
        let setup = translated(setup).psw_key(1).key(4, 0x20);
        assert_eq!(expect(&setup, PROTECTION, 9).keys, tested);
        let stored = [(0, 0, 0x06), (2, 0, 0x04), (4, 0x10, 0x16), (6, 0, 0x04), (7, 0, 0x04)];
        assert_eq!(expect(&setup.key(4, 0x10), COMPLETED, 11).keys, stored);
    }
}

/// The virtual PSW's block is stored in though its byte keeps its value; an operand there is stored in it too.
#[test]
fn a_store_of_the_same_value_is_a_store() {
    let setup = Setup::stosm([0x07, VIRTUAL_EC], 0x03).operand(0x600).word(MICBLOK + 8, 0x3000);
    let ran = expect(&setup.halfword(0x3000, 0x0708), COMPLETED, 7);
    // 07 is stored over the 07 at 600 and over that at 3000.
    assert_eq!((ran.bytes.len(), ran.keys), (0, vec![(0, 0, 0x06), (2, 0, 0x04), (6, 0, 0x06)]));
}

/// SSK of a page in frame 000, upper half: block 1, in which its tables are. MICBLOK is in block 0.
fn ssk_of_table_block() -> Setup {
    let mut setup = Setup::ssk().halfword(0xC16, 0x0000);
    setup.guest.general_registers[4] = 0x0002_3800;
    setup
}

/// Right bits of the page's key, byte 0 of the swap word (02 reference, 01 change), key afterwards: the fetches come
/// before the key is read, and it is set to 38 before the store.
#[test]
fn ssk_reads_the_key_after_its_fetches_and_sets_it_before_its_store() {
    for (before, byte_0, after) in [
        (0x00, 0x02, 0x3E),
        (0x01, 0x02, 0x3F),
        (0x02, 0x03, 0x3E),
        (0x03, 0x03, 0x3F),
        (0x04, 0x02, 0x3E),
        (0x05, 0x02, 0x3F),
        (0x06, 0x03, 0x3E),
        (0x07, 0x03, 0x3F),
    ] {
        let ran = expect(&ssk_of_table_block().key(1, 0xC0 | before), COMPLETED, 8);
        assert_eq!(ran.bytes, [(0xD18, 0x00, byte_0), (0xD1B, 0x00, 0x3E)]);
        assert_eq!(ran.keys, [(0, 0x00, 0x04), (1, 0xC0 | before, after)]);
    }
}

#[test]
fn ssk_of_an_invalid_page_reads_no_recorded_bit() {
    let ran = expect(&ssk_of_table_block().halfword(0xC16, 0x0008), COMPLETED, 6);
    assert_eq!(ran.bytes, [(0xD1B, 0x00, 0x3E)]);
    assert_eq!(ran.keys, [(0, 0x00, 0x04), (1, 0x00, 0x06)]);
}

#[test]
fn ssk_keeps_what_it_recorded_before_an_ending() {
    // Step 3: MICRSEG. Step 6: the segment entry too. Step 8: the swap word at FFFFFE is partly outside 16 KiB, and
    // nothing is recorded in block 0 for it. Steps 10 and 11: no key is read or set.
    let ssk = Setup::ssk().key(0, 0x01).key(1, 0xF2).key(2, 0x02);
    let micrseg = [(0, 0x01, 0x05)];
    let tables = [(0, 0x01, 0x05), (1, 0xF2, 0xF6)];
    assert_eq!(expect(&ssk.clone().word(MICBLOK, 0x0802), REFUSED, 1).keys, micrseg);
    assert_eq!(expect(&ssk.clone().word(0x808, 0xF000_0C11), REFUSED, 2).keys, tables);
    assert_eq!(expect(&ssk.clone().word(0xC0C, 0xFF_FFE6), not_in_storage(8), 3).keys, tables);
    assert_eq!(expect(&ssk.clone().halfword(0xC16, 0x0012), REFUSED, 5).keys, tables);
    assert_eq!(expect(&ssk.halfword(0xC16, 0x0040), not_in_storage(11), 5).keys, tables);
}

/// 16 MiB, page in frame FFF, upper half: block 1FFF. The swap word at FFFFFE to 000001 is in it and in block 0.
#[test]
fn ssk_with_its_swap_word_round_the_top() {
    let mut setup = Setup::ssk().size(0x100_0000).word(0xC0C, 0xFF_FFE6).halfword(0xC16, 0xFFF0);
    setup.guest.general_registers[4] = 0x0002_3800;
    let ran = expect(&setup.key(0x1FFF, 0xA1), COMPLETED, 8);
    assert_eq!(ran.bytes, [(0x00_0001, 0x00, 0x3E), (0xFF_FFFE, 0x00, 0x02)]);
    assert_eq!(ran.keys, [(0x0, 0x00, 0x06), (0x1, 0x00, 0x04), (0x1FFF, 0xA1, 0x3F)]);
}
