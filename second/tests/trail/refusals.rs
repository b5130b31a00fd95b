//! Refusals 20 and 21: when, which first, what is handed back, and that nothing is written.

use second::trail::{start, write, Entry};

use super::{bytes, entry, refused, trailer_at, went_well, UNUSED};

/// The writing call is refused by this number, hands back the number given and writes nothing.
fn expect_refused(buffer: &[u8], given: u32, refusal: u8) {
    let mut after = buffer.to_vec();
    assert_eq!(write(&mut after, given, &entry()), refused(refusal, given), "given {given}");
    assert!(after == buffer, "given {given}");
}

/// Numbers near the places where a distance, or the number itself, would go round.
const NUMBERS: [u32; 14] = [
    1,
    2,
    0x00FF_FFFF,
    0x01FF_FFFE,
    0x01FF_FFFF,
    0x0200_0000,
    0x0200_0001,
    0x0400_0000,
    0x1FFF_FFFF,
    0x2000_0000,
    0x8000_0000,
    0xFE00_0000,
    0xFFFF_FFFE,
    0xFFFF_FFFF,
];

#[test]
fn under_sixteen_bytes_is_refused_first() {
    for length in 0..16 {
        // Neither a right beginning of a trailer nor any number changes that.
        for contents in [bytes(&[0, 0, 0, 1]), vec![UNUSED; 16], vec![0; 16]] {
            let mut buffer = contents[..length].to_vec();
            assert_eq!(start(&mut buffer), refused(21, 0));
            assert_eq!(buffer, contents[..length]);
            expect_refused(&buffer, 0, 21);
            for number in NUMBERS {
                expect_refused(&buffer, number, 21);
            }
        }
    }
    expect_refused(&bytes(&[0, 0, 0, 2]), 0, 20);
}

/// Each of distance, record number and version by every single bit, in a trail of none and of one.
#[test]
fn another_trailer_is_refused() {
    let mut full = vec![UNUSED; 300];
    start(&mut full);
    let empty = full.clone();
    write(&mut full, 0, &entry());
    for (buffer, held) in [(&empty, 0), (&full, 1)] {
        let place = 128 * held as usize;
        for bit in (0..128).filter(|bit| bit / 32 != 2) {
            let mut altered = buffer.clone();
            altered[place + bit / 8] ^= 1 << (bit % 8);
            expect_refused(&altered, held, 20);
        }
        // Any turned-away number is right.
        for bit in 64..96 {
            let mut altered = buffer.clone();
            altered[place + bit / 8] ^= 1 << (bit % 8);
            let turned_away = trailer_at(&altered, place)[2];
            assert_eq!(write(&mut altered, held, &entry()), went_well(held + 1));
            assert_eq!(trailer_at(&altered, place + 128), [128 * (held + 1), held + 1, turned_away, 1]);
        }
    }
    expect_refused(&[UNUSED; 300], 0, 20);
    expect_refused(&[0; 300], 0, 20);
}

/// The trailer of one record stands at 128: whole in 144 bytes, not in 143.
#[test]
fn trailer_not_whole_is_refused() {
    let mut buffer = vec![UNUSED; 144];
    start(&mut buffer);
    write(&mut buffer, 0, &entry());
    for length in 16..144 {
        expect_refused(&buffer[..length], 1, 20);
    }
    assert_eq!(write(&mut buffer, 1, &entry()), went_well(1));
}

#[test]
fn another_number_is_refused() {
    let mut buffer = vec![UNUSED; 1_000];
    start(&mut buffer);
    for number in NUMBERS {
        expect_refused(&buffer, number, 20);
    }
    for held in 0..4 {
        write(&mut buffer, held, &entry());
    }
    for number in [0, 1, 2, 3, 5, 6, 7].into_iter().chain(NUMBERS) {
        expect_refused(&buffer, number, 20);
    }
    assert_eq!(write(&mut buffer, 4, &entry()), went_well(5));
}

/// A number whose distance is over 4,294,967,295 never points at the front, though its distance modulo 2^32 does.
#[test]
fn distances_do_not_go_round() {
    for number in [0x0200_0000, 0x0400_0000, 0x8000_0000, 0xFE00_0000] {
        expect_refused(&[bytes(&[0, number, 0, 1]), vec![UNUSED; 400]].concat(), number, 20);
    }
    let mut at_128 = vec![UNUSED; 400];
    at_128[128..144].copy_from_slice(&bytes(&[0x80, 0x0200_0001, 0, 1]));
    expect_refused(&at_128, 0x0200_0001, 20);
}

/// After a refusal the trail goes on with the right number.
#[test]
fn a_refusal_changes_nothing_for_the_next_call() {
    let mut buffer = vec![UNUSED; 272];
    start(&mut buffer);
    assert_eq!(write(&mut buffer, 1, &entry()), refused(20, 1));
    assert_eq!(write(&mut buffer, 0, &entry()), went_well(1));
    assert_eq!(write(&mut buffer[..15], 1, &entry()), refused(21, 1));
    assert_eq!(start(&mut buffer[..15]), refused(21, 0));
    assert_eq!(write(&mut buffer, 1, &entry()), went_well(2));
    assert_eq!(trailer_at(&buffer, 256), [0x100, 2, 0, 1]);
}

/// The trailer is judged by its bytes alone: one that an earlier trail left, or a record that reads like one, passes
/// if the caller gives its number. R-1 promises something only for the number handed back.
#[test]
fn bytes_that_read_as_a_trailer() {
    let mut buffer = vec![UNUSED; 300];
    start(&mut buffer);
    write(&mut buffer, 0, &entry());
    start(&mut buffer);
    assert_eq!(write(&mut buffer, 1, &entry()), went_well(2));
    // Sequence 0, guest number 0, code 0 with count 1: no call has these, but an entry may.
    let like_a_trailer = Entry { guest_number: 0, code_or_step: 0, count: 1, ..entry() };
    start(&mut buffer);
    assert_eq!(write(&mut buffer, 0, &like_a_trailer), went_well(1));
    assert_eq!(write(&mut buffer, 0, &entry()), went_well(1));
    assert_eq!(trailer_at(&buffer, 128), [0x80, 1, 0xB6E1_0103, 1]);
}
