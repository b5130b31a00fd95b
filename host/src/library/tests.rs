//! Calls that are made by the library and written down by it: the eight calls, and the distance's ceiling.

use second::eight_calls::{calls, image, trail_file, GuestCall};
use second::trail::Entry;
use second::Request;

use super::{attempt, trail_start, trail_write, MadeCall};
use crate::record;
use crate::written::Written;

/// What the buffers hold before a start.
const UNUSED: u8 = 0xEE;

fn written(refusal: u64, held: u32) -> Written {
    Written::unpack(refusal << 56 | u64::from(held))
}

/// The eight calls, made in order on the one machine.
fn eight_calls() -> [MadeCall; 8] {
    let image = image();
    let (mut storage, mut keys) = (image.storage(), image.key_bytes());
    calls().map(|GuestCall { guest_number, request }| {
        let Request { guest, first_halfword, expanded } = request;
        let before = record::of_guest(&guest);
        let mut after = before;
        let answer = attempt(&mut storage, &mut keys, &mut after, first_halfword, expanded);
        MadeCall { guest_number, before, after, first_halfword, expanded, answer }
    })
}

#[test]
fn eight_calls_of_which_five_go_in() {
    let file = trail_file();
    assert_eq!(file.len(), 5 * 128 + 16);
    // Room for just five records; the second program's buffer; a byte less than room for six.
    for length in [656, 680, 783] {
        let mut buffer = vec![UNUSED; length];
        assert_eq!(trail_start(&mut buffer), written(0, 0));
        let mut held = 0;
        for (call, held_then) in eight_calls().iter().zip([1, 2, 3, 4, 5, 5, 5, 5]) {
            assert_eq!(trail_write(&mut buffer, held, call), written(0, held_then));
            held = held_then;
        }
        assert_eq!(buffer[..656], file);
        assert!(buffer[656..].iter().all(|&byte| byte == UNUSED));
    }
}

#[test]
fn refusals_hand_back_the_number_given_and_write_nothing() {
    let [call, ..] = eight_calls();
    let mut buffer = [UNUSED; 272];
    assert_eq!(trail_write(&mut [], u32::MAX, &call), written(21, u32::MAX));
    assert_eq!(trail_start(&mut []), written(21, 0));
    assert_eq!(trail_start(&mut buffer[..15]), written(21, 0));
    assert_eq!(trail_write(&mut buffer[..15], 7, &call), written(21, 7));
    assert_eq!(trail_write(&mut buffer, 0, &call), written(20, 0));
    assert_eq!(buffer, [UNUSED; 272]);
    trail_start(&mut buffer);
    let before = buffer;
    for given in [1, 2, 0x0200_0000, u32::MAX] {
        assert_eq!(trail_write(&mut buffer, given, &call), written(20, given));
    }
    assert_eq!(buffer, before);
}

/// 128 times 33,554,430. 128 more is the last distance that has 4 bytes, and 128 more again is 2^32.
#[cfg(target_pointer_width = "64")]
const DISTANCE: usize = 4_294_967_040;

/// The pages of this buffer are taken only where they are touched: at its front, and from here on.
#[cfg(target_pointer_width = "64")]
const TOUCHED: usize = DISTANCE - 8_192;

/// Four numbers as they stand in a trailer.
fn trailer(numbers: [u32; 4]) -> Vec<u8> {
    numbers.into_iter().flat_map(u32::to_be_bytes).collect()
}

#[test]
#[cfg(target_pointer_width = "64")]
fn the_distances_ceiling() {
    let [call, ..] = eight_calls();
    let [entry, ..]: [Entry; 8] = second::eight_calls::entries();
    // 204 bytes over 2^32: there is room for a record and a trailer more than the distance allows.
    let mut buffer = vec![0u8; 4_294_967_500];
    buffer[DISTANCE..DISTANCE + 16].copy_from_slice(&trailer([0xFFFF_FF00, 33_554_430, 9, 1]));
    assert_eq!(trail_write(&mut buffer, 33_554_430, &call), written(0, 33_554_431), "it goes in");
    let mut expected = vec![0; buffer.len() - TOUCHED];
    let (record, after) = expected[DISTANCE - TOUCHED..].split_at_mut(128);
    record.copy_from_slice(&entry.record(33_554_430));
    for turned_away in [9, 10, 11] {
        // The distance 4,294,967,168 is FFFFFF80.
        after[..16].copy_from_slice(&trailer([0xFFFF_FF80, 33_554_431, turned_away, 1]));
        assert!(buffer[TOUCHED..].ends_with(after) && buffer[DISTANCE..].starts_with(record));
        assert_eq!(trail_write(&mut buffer, 33_554_431, &call), written(0, 33_554_431), "turned away");
    }
    after[11] = 12;
    assert_eq!(buffer[TOUCHED..], expected);
    assert_eq!(buffer[..8_192], [0; 8_192]);
    past_the_ceiling(&mut buffer, &call);
}

/// 128 times 33,554,432 is 2^32: no trailer has this distance, neither at 2^32 nor at the front.
#[cfg(target_pointer_width = "64")]
fn past_the_ceiling(buffer: &mut [u8], call: &MadeCall) {
    for distance in [0, 0x80, 0xFFFF_FF80, 0xFFFF_FFFF] {
        let trailer = trailer([distance, 33_554_432, 0, 1]);
        buffer[DISTANCE + 256..DISTANCE + 272].copy_from_slice(&trailer);
        buffer[..16].copy_from_slice(&trailer);
        let before = (buffer[..8_192].to_vec(), buffer[TOUCHED..].to_vec());
        assert_eq!(trail_write(buffer, 33_554_432, call), written(20, 33_554_432));
        assert_eq!((buffer[..8_192].to_vec(), buffer[TOUCHED..].to_vec()), before);
    }
}
