//! The distance's ceiling, in a buffer of over 4 GiB whose pages are not touched but at the trailers.
#![cfg(target_pointer_width = "64")]

use second::trail::write;

use super::{bytes, entry, refused, trailer_at, went_well, word_at};

/// 128 times 33,554,430; the last distance of 4 bytes is 128 more, and 128 more again is 2^32.
const DISTANCE: usize = 4_294_967_040;

#[test]
fn distance_ceiling() {
    // 204 bytes over 2^32: room for a record and trailer more than the distance allows.
    let mut buffer = vec![0u8; 4_294_967_500];
    buffer[DISTANCE..DISTANCE + 16].copy_from_slice(&bytes(&[0xFFFF_FF00, 33_554_430, 0, 1]));
    assert_eq!(write(&mut buffer, 33_554_430, &entry()), went_well(33_554_431));
    assert_eq!(word_at(&buffer, DISTANCE), 33_554_430);
    assert_eq!(word_at(&buffer, DISTANCE + 4), 0x0102_0304);
    assert_eq!(trailer_at(&buffer, DISTANCE + 128), [4_294_967_168, 33_554_431, 0, 1]);
    assert_eq!(buffer[DISTANCE - 400..DISTANCE], [0; 400]);
    let before = buffer[DISTANCE - 400..].to_vec();
    for turned_away in 1..=2 {
        assert_eq!(write(&mut buffer, 33_554_431, &entry()), went_well(33_554_431));
        assert_eq!(trailer_at(&buffer, DISTANCE + 128), [4_294_967_168, 33_554_431, turned_away, 1]);
    }
    let mut expected = before;
    expected[400 + 128 + 11] = 2;
    assert_eq!(buffer[DISTANCE - 400..], expected);
    assert_eq!(buffer[..400], [0; 400]);
    past_the_ceiling(&mut buffer);
}

/// At 2^32 a trailer has no right distance, neither modulo 2^32 nor the ceiling.
fn past_the_ceiling(buffer: &mut [u8]) {
    let place = DISTANCE + 256;
    for distance in [0, 0x80, 0xFFFF_FF80, 0xFFFF_FFFF] {
        let trailer = bytes(&[distance, 33_554_432, 0, 1]);
        buffer[place..place + 16].copy_from_slice(&trailer);
        buffer[..16].copy_from_slice(&trailer);
        let before = buffer[DISTANCE..].to_vec();
        assert_eq!(write(buffer, 33_554_432, &entry()), refused(20, 33_554_432));
        assert_eq!(buffer[DISTANCE..], before);
        assert_eq!(buffer[..16], trailer);
    }
    assert_eq!(write(buffer, u32::MAX, &entry()), refused(20, u32::MAX));
}
