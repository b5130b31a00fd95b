//! The 128 bytes of a record, and what is taken from a call.

use second::setup::Setup;
use second::trail::{start, write, Entry};
use second::{attempt_counted, Ending, Guest};

use super::{bytes, entry, went_well, UNUSED};

/// Sequence, guest number; first halfword, expanded flag, ending; code or step, count; both addresses; PSW.
const FRONT: [u32; 8] =
    [0x0000_0000, 0x0102_0304, 0xB6E1_0103, 0x0A0B_0C0D, 0x0011_2233, 0x0044_5566, 0xF0F1_F2F3, 0xF4F5_F6F7];

fn expected(sequence: u32) -> Vec<u8> {
    let mut words = FRONT.to_vec();
    words[0] = sequence;
    words.extend((0..16).map(|number| 0xA0B0_C000 + number));
    words.extend([0xD0D1_D2D3, 0xD4D5_D6D7, 0xD8D9_DADB]);
    words.extend([0; 5]);
    bytes(&words)
}

/// Where each field begins, as the sum of the lengths before it.
#[test]
fn field_by_field() {
    let mut buffer = vec![UNUSED; 200];
    start(&mut buffer);
    assert_eq!(write(&mut buffer, 0, &entry()), went_well(1));
    let fields: [(usize, &[u8]); 16] = [
        (0, &[0, 0, 0, 0]),
        (4, &[1, 2, 3, 4]),
        (8, &[0xB6, 0xE1]),
        (10, &[1]),
        (11, &[3]),
        (12, &[0x0A, 0x0B]),
        (14, &[0x0C, 0x0D]),
        (16, &[0, 0x11, 0x22, 0x33]),
        (20, &[0, 0x44, 0x55, 0x66]),
        (24, &[0xF0, 0xF1, 0xF2, 0xF3, 0xF4, 0xF5, 0xF6, 0xF7]),
        (32, &[0xA0, 0xB0, 0xC0, 0x00]),
        (92, &[0xA0, 0xB0, 0xC0, 0x0F]),
        (96, &[0xD0, 0xD1, 0xD2, 0xD3]),
        (100, &[0xD4, 0xD5, 0xD6, 0xD7]),
        (104, &[0xD8, 0xD9, 0xDA, 0xDB]),
        (108, &[0; 20]),
    ];
    for (place, field) in fields {
        assert_eq!(&buffer[place..place + field.len()], field, "at {place}");
    }
    assert_eq!(buffer[..128], expected(0));
    // Distance, held, turned away, version.
    assert_eq!(buffer[128..144], [0, 0, 0, 0x80, 0, 0, 0, 1, 0, 0, 0, 0, 0, 0, 0, 1]);
    assert_eq!(buffer[144..], [UNUSED; 56]);
}

#[test]
fn sequences_run_from_zero() {
    let mut buffer = vec![UNUSED; 3 * 128 + 16 + 8];
    assert_eq!(start(&mut buffer), went_well(0));
    for held in 0..3 {
        assert_eq!(write(&mut buffer, held, &entry()), went_well(held + 1));
    }
    assert_eq!(buffer[..128], expected(0));
    assert_eq!(buffer[128..256], expected(1));
    assert_eq!(buffer[256..384], expected(2));
    assert_eq!(buffer[384..400], bytes(&[0x180, 3, 0, 1]));
    assert_eq!(buffer[400..], [UNUSED; 8]);
}

/// An entry with ones in every bit, or zeros.
fn filled(ones: bool) -> Entry {
    let word = if ones { u32::MAX } else { 0 };
    Entry {
        guest_number: word,
        first_halfword: word as u16,
        expanded_installed: ones,
        ending: word as u8,
        code_or_step: word as u16,
        count: word as u16,
        next_address: word,
        translation_address: word,
        before: Guest {
            psw_0_31: word,
            psw_32_63: word,
            general_registers: [word; 16],
            control_register_0: word,
            control_register_1: word,
            control_register_6: word,
        },
    }
}

#[test]
fn largest_and_smallest_fields() {
    let mut words = [u32::MAX; 32];
    words[0] = 0;
    words[2] = 0xFFFF_01FF;
    words[27..].fill(0);
    let mut buffer = vec![UNUSED; 144];
    start(&mut buffer);
    write(&mut buffer, 0, &filled(true));
    assert_eq!(buffer[..128], bytes(&words));
    start(&mut buffer);
    write(&mut buffer, 0, &filled(false));
    assert_eq!(buffer[..128], [0; 128]);
}

/// Ending, code or step, count, next address and translation address of a set-up's call as guest 5.
fn taken(setup: &Setup) -> (u8, u16, u16, u32, u32) {
    let request = setup.request();
    let (mut storage, mut keys) = (setup.image.storage(), setup.image.key_bytes());
    let answer =
        attempt_counted(&mut storage, &mut keys, &request.guest, request.first_halfword, request.expanded);
    let entry = Entry::new(5, &request, &answer);
    assert_eq!(Entry::new(5, &request, &setup.call().make().counted()), entry);
    assert_eq!((entry.guest_number, entry.first_halfword), (5, setup.first_halfword));
    assert_eq!((entry.expanded_installed, entry.before), (setup.expanded, setup.guest));
    (entry.ending, entry.code_or_step, entry.count, entry.next_address, entry.translation_address)
}

#[test]
fn taken_from_calls() {
    let ec = [0x04, 0x08];
    assert_eq!(taken(&Setup::ssm(ec, 0x07)), (0, 0, 9, 0x1004, 0));
    assert_eq!(taken(&Setup::ssk()), (0, 0, 8, 0x1002, 0));
    assert_eq!(taken(&Setup::ssm(ec, 0x84)), (1, 2, 8, 0x1000, 0));
    // The flag is that of the call, whether bit 6 of control register 6 is one or zero (`taken` looks at it).
    assert_eq!(taken(&Setup::ssm(ec, 0x84).expanded().switched_on()), (2, 0, 8, 0x1000, 0));
    assert_eq!(taken(&Setup::ssm(ec, 0x84).expanded()), (1, 2, 8, 0x1000, 0));
    // The ECBLOK is at FFFFF0, so virtual register 0 is not in storage.
    assert_eq!(taken(&Setup::ssm(ec, 7).word(0x404, 0xFF_FFF0)), (3, 3, 1, 0x1000, 0));
    // No segment table entry at all (zero): page index 1 exceeds length 0. Entries: MICVPSW, virtual PSW, segment
    // entry; a refusal carries no address.
    assert_eq!(taken(&Setup::stnsm(ec, 0xFF).dat(0b10000)), (1, 2, 3, 0x1000, 0));
    // STCTL: MICCREG, segment entry; the halfword is at 1002.
    assert_eq!(taken(&Setup::stctl(5, 5).dat(0b10000)), (1, 17, 2, 0x1000, 0x1002));
    // MICCREG only: the halfword is at 200000, and bits 8-11 of that, 2, are over the length 0 in control register 1.
    let mut far = Setup::stctl(5, 5).dat(0b10000);
    far.guest.control_register_1 &= 0x00FF_FFFF;
    far.guest.psw_32_63 = 0xAB1F_FFFE;
    assert_eq!(taken(&far), (1, 16, 1, 0x1F_FFFE, 0x20_0000));
    assert_eq!(taken(&Setup::stctl(1, 0).size(0x4001)), (10, 0, 0, 0x1000, 0));
}

/// ISK and RRB: the place of ending 3; the record is that before the call (`taken` looks at it), so that what
/// they set is not in it.
#[test]
fn taken_from_key_instructions() {
    assert_eq!(taken(&Setup::isk(0x08)), (0, 0, 8, 0x1002, 0));
    assert_eq!(taken(&Setup::rrb()), (0, 0, 10, 0x1004, 0));
    // Virtual PSW at 3FFF: place 8, of an invalid page 7. Key block of RRB: place 6.
    let isk = Setup::isk(0x08).word(0x408, 0x3FFF);
    assert_eq!(taken(&isk), (3, 8, 7, 0x1000, 0));
    assert_eq!(taken(&isk.halfword(0xC16, 0x0018)), (3, 7, 6, 0x1000, 0));
    assert_eq!(taken(&Setup::rrb().halfword(0xC16, 0x0FF0)), (3, 6, 7, 0x1000, 0));
    // RRB: MICRSEG, segment entry; page index 1 exceeds length 0.
    assert_eq!(taken(&Setup::rrb().dat(0b10000)), (1, 17, 2, 0x1000, 0x1002));
}

/// LRA likewise.
#[test]
fn taken_from_load_real_address() {
    assert_eq!(taken(&Setup::lra()), (0, 0, 12, 0x1004, 0));
    // Segment entry invalid: condition code 1, completed all the same.
    assert_eq!(taken(&Setup::lra().word(0x2910, 0x5005_6D09)), (0, 0, 9, 0x1004, 0));
    // ECBLOK at 3FFC: place 4. Page table of the second walk at 4000: place 8.
    assert_eq!(taken(&Setup::lra().word(0x404, 0x3FFC)), (3, 4, 3, 0x1000, 0));
    assert_eq!(taken(&Setup::lra().word(0x814, 0x6000_4000)), (3, 8, 10, 0x1000, 0));
    // A virtual entry that is not in storage is refused.
    assert_eq!(taken(&Setup::lra().halfword(0xC16, 0x0040)), (1, 2, 8, 0x1000, 0));
    // Four fields, segment entry; page index 1 exceeds length 0.
    assert_eq!(taken(&Setup::lra().dat(0b10000)), (1, 17, 5, 0x1000, 0x1002));
}

/// The address is bits 40-63 of the PSW handed back; bits 32-39 are no part of it, and it goes round.
#[test]
fn next_address_has_24_bits() {
    let mut setup = Setup::ssk();
    setup.guest.psw_32_63 = 0xABFF_FFFE;
    assert_eq!(taken(&setup), (0, 0, 8, 0, 0));
    setup.guest.psw_32_63 = 0xABFF_FFFF;
    assert_eq!(taken(&setup), (12, 0, 0, 0xFF_FFFF, 0));
    let request = setup.request();
    assert_eq!(setup.call().make().ending, Ending::OddInstructionAddress);
    let mut buffer = vec![UNUSED; 144];
    start(&mut buffer);
    write(&mut buffer, 0, &Entry::new(5, &request, &setup.call().make().counted()));
    assert_eq!(buffer[16..20], [0x00, 0xFF, 0xFF, 0xFF]);
    assert_eq!(buffer[28..32], [0xAB, 0xFF, 0xFF, 0xFF]);
}

/// PSW as before the call, next address as after it.
#[test]
fn psw_is_as_before_the_call() {
    let setup = Setup::ssm([0x04, 0x08], 0x07);
    let mut buffer = vec![UNUSED; 144];
    start(&mut buffer);
    write(&mut buffer, 0, &Entry::new(5, &setup.request(), &setup.call().make().counted()));
    assert_eq!(buffer[8..16], [0x80, 0x00, 0, 0, 0, 0, 0, 9]);
    assert_eq!(buffer[16..32], bytes(&[0x1004, 0, 0x0009_0000, 0x1000]));
}
