//! When a record goes in, and what changes when it is turned away.

use second::trail::{start, write};

use super::{bytes, entry, trailer_at, went_well, UNUSED};

/// The bytes that differ.
fn changed(before: &[u8], after: &[u8]) -> Vec<usize> {
    (0..before.len()).filter(|&place| before[place] != after[place]).collect()
}

#[test]
fn starting_writes_sixteen_bytes() {
    for length in [16, 17, 128, 144, 300] {
        let mut buffer = vec![UNUSED; length];
        assert_eq!(start(&mut buffer), went_well(0));
        assert_eq!(buffer[..16], [0, 0, 0, 0, 0, 0, 0, 0, 0, 0, 0, 0, 0, 0, 0, 1]);
        assert!(buffer[16..].iter().all(|&byte| byte == UNUSED));
    }
}

/// One record and the trailer are 144 bytes.
#[test]
fn first_record_at_143_and_144() {
    for length in 16..=143 {
        let mut buffer = vec![UNUSED; length];
        start(&mut buffer);
        let before = buffer.clone();
        assert_eq!(write(&mut buffer, 0, &entry()), went_well(0));
        assert_eq!(trailer_at(&buffer, 0), [0, 0, 1, 1]);
        assert_eq!(changed(&before, &buffer), [11]);
    }
    let mut buffer = vec![UNUSED; 144];
    start(&mut buffer);
    assert_eq!(write(&mut buffer, 0, &entry()), went_well(1));
    assert_eq!(trailer_at(&buffer, 128), [0x80, 1, 0, 1]);
}

/// Two records and the trailer are 272 bytes.
#[test]
fn second_record_at_271_and_272() {
    let mut buffer = vec![UNUSED; 300];
    start(&mut buffer);
    write(&mut buffer, 0, &entry());
    let before = buffer.clone();
    for length in 144..=271 {
        let mut short = before[..length].to_vec();
        assert_eq!(write(&mut short, 1, &entry()), went_well(1));
        assert_eq!(trailer_at(&short, 128), [0x80, 1, 1, 1]);
        assert_eq!(changed(&before[..length], &short), [139]);
    }
    assert_eq!(write(&mut buffer[..272], 1, &entry()), went_well(2));
    assert_eq!(trailer_at(&buffer, 256), [0x100, 2, 0, 1]);
    assert_eq!(buffer[..128], before[..128]);
    assert_eq!(buffer[272..], before[272..]);
}

/// Turned away, nothing but the third number rises, once for each call; the carry goes through its bytes.
#[test]
fn turned_away_rises_by_ones() {
    let mut buffer = vec![UNUSED; 150];
    start(&mut buffer);
    write(&mut buffer, 0, &entry());
    let before = buffer.clone();
    for number in 1..=300u32 {
        assert_eq!(write(&mut buffer, 1, &entry()), went_well(1));
        assert_eq!(trailer_at(&buffer, 128), [0x80, 1, number, 1]);
    }
    assert_eq!(changed(&before, &buffer), [138, 139]);
}

#[test]
fn turned_away_stays_at_its_ceiling() {
    for (number, next) in [
        (0x0000_00FF, 0x0000_0100),
        (0x7FFF_FFFF, 0x8000_0000),
        (0xFFFF_FFFD, 0xFFFF_FFFE),
        (0xFFFF_FFFE, 0xFFFF_FFFF),
        (0xFFFF_FFFF, 0xFFFF_FFFF),
    ] {
        let mut buffer = bytes(&[0, 0, number, 1]);
        assert_eq!(write(&mut buffer, 0, &entry()), went_well(0));
        assert_eq!(trailer_at(&buffer, 0), [0, 0, next, 1]);
    }
}

/// A caller that lends the same front again with more room: the number turned away goes with the trailer.
#[test]
fn turned_away_is_kept_when_a_record_goes_in() {
    for turned_away in [2, u32::MAX] {
        let mut buffer = vec![UNUSED; 160];
        start(&mut buffer);
        buffer[8..12].copy_from_slice(&(turned_away - 1).to_be_bytes());
        assert_eq!(write(&mut buffer[..143], 0, &entry()), went_well(0));
        assert_eq!(write(&mut buffer, 0, &entry()), went_well(1));
        assert_eq!(trailer_at(&buffer, 128), [0x80, 1, turned_away, 1]);
        assert_eq!(buffer[..4], [0; 4]);
        assert_eq!(buffer[108..128], [0; 20]);
        assert_eq!(buffer[144..], [UNUSED; 16]);
    }
}

/// Starting again writes the empty trailer over the first record's front, and no other byte.
#[test]
fn starting_again() {
    let mut buffer = vec![UNUSED; 300];
    start(&mut buffer);
    for held in [0, 1, 2] {
        write(&mut buffer, held, &entry());
    }
    assert_eq!(trailer_at(&buffer, 256), [0x100, 2, 1, 1]);
    let before = buffer.clone();
    assert_eq!(start(&mut buffer), went_well(0));
    assert_eq!(trailer_at(&buffer, 0), [0, 0, 0, 1]);
    assert_eq!(buffer[16..], before[16..]);
    assert_eq!(write(&mut buffer, 0, &entry()), went_well(1));
    assert_eq!(trailer_at(&buffer, 128), [0x80, 1, 0, 1]);
    assert_eq!(buffer[144..], before[144..]);
}
