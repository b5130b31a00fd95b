//! Trails that are damaged: what stands before the damage is printed, the message says what is wrong and
//! where, and the status is 1.

use super::bytes::{bytes, show, three, AFTER_THREE, LINES, SSK, SSM, STCTL};

const SAVING: &str = "A buffer is to be saved up to and with its trailer, 128 times the records held \
                      plus 16 bytes, and not whole";

/// So many records are printed, and then this message.
fn damaged(trail: &[u8], printed: usize, message: &str) {
    let run = show(trail, &[]);
    let expected = (Some(1), LINES[..printed].concat(), format!("vma: trail file trail: {message}\n"));
    assert_eq!((run.status, run.output, run.messages), expected);
}

/// The three records with some bytes put at a place.
fn altered(at: usize, hex: &str) -> Vec<u8> {
    let (mut trail, new) = (three(), bytes(&[hex]));
    trail[at..at + new.len()].copy_from_slice(&new);
    trail
}

#[test]
fn sequence() {
    let record_0 = "record 0, byte 0 (hex 0): the sequence number is 16777216, and should be 0";
    damaged(&altered(0, "01"), 0, record_0);
    let record_1 = "record 1, byte 128 (hex 80): the sequence number is 2, and should be 1";
    damaged(&bytes(&[SSM, SSK, STCTL, AFTER_THREE]), 1, record_1);
    let record_2 = "record 2, byte 256 (hex 100): the sequence number is 0, and should be 2";
    damaged(&bytes(&[SSM, STCTL, SSM, AFTER_THREE]), 2, record_2);
}

#[test]
fn expanded_flag() {
    let message = "record 1, byte 138 (hex 8A): the expanded flag is 2, and should be 0 or 1";
    damaged(&altered(138, "02"), 1, message);
    let message = "record 2, byte 266 (hex 10A): the expanded flag is 255, and should be 0 or 1";
    damaged(&altered(266, "FF"), 2, message);
}

#[test]
fn zeros() {
    for at in 0..20 {
        let offset = 256 + 108 + at;
        let message =
            format!("record 2, byte {offset} (hex {offset:X}): one of the 20 zeros is 80, and should be 00");
        damaged(&altered(offset, "80"), 2, &message);
    }
}

#[test]
fn calls_turned_away_are_told_all_the_same() {
    let mut trail = altered(256, "80");
    trail[384 + 11] = 3;
    let message =
        "record 2, byte 256 (hex 100): the sequence number is 2147483650, and should be 2; 3 MORE CALLS \
         WERE TURNED AWAY: THE TRAIL WAS FULL, AND THEY ARE NOT IN IT";
    damaged(&trail, 2, message);
}

#[test]
fn version() {
    let found = "Records 0 to 2 are found, and the length is right for that number";
    let message =
        |version| format!("trailer, byte 396 (hex 18C): the version is {version}, and should be 1. {found}");
    damaged(&altered(396, "00000000"), 0, &message(0));
    damaged(&altered(396, "00000002"), 0, &message(2));
    damaged(&altered(396, "01000001"), 0, &message(16_777_217));
}

#[test]
fn distance() {
    let found = "Records 0 to 2 are found, and the length is right for that number";
    let message =
        "trailer, byte 384 (hex 180): the distance back to the first record is 385, and should be 384, \
         128 times the number of records, which is 3 at byte 388 (hex 184)";
    damaged(&altered(384, "00000181"), 0, &format!("{message}. {found}"));
    let message = "trailer, byte 384 (hex 180): the distance back to the first record is 384, and should be \
                   4294967296, 128 times the number of records, which is 33554432 at byte 388 (hex 184)";
    damaged(&altered(388, "02000000"), 0, &format!("{message}. {found}"));
}

#[test]
fn the_trailer_is_looked_at_first() {
    let mut trail = altered(0, "FFFFFFFF");
    trail[399] = 2;
    let message =
        "trailer, byte 396 (hex 18C): the version is 2, and should be 1. No record is found; at byte 0 \
         (hex 0) stands neither record 0 nor a trailer";
    damaged(&trail, 0, &format!("{message}. {SAVING}"));
}

#[test]
fn a_buffer_saved_whole() {
    let found = "A trailer of 3 records stands at byte 384 (hex 180)";
    for more in [1, 15, 16, 112, 128, 1_000] {
        let mut trail = three();
        trail.resize(400 + more, 0);
        let plural = if more == 1 { "" } else { "s" };
        let message =
            format!(". {found}, and {more} byte{plural} after it. {SAVING}: here the first 400 bytes\n");
        let run = show(&trail, &[]);
        assert_eq!((run.status, run.output.as_str()), (Some(1), ""));
        assert!(run.messages.ends_with(&message), "{}", run.messages);
    }
    let mut trail = bytes(&["00000000 00000000 00000000 00000001"]);
    trail.resize(4_096, 0x5A);
    let message =
        "trailer, byte 4092 (hex FFC): the version is 1515870810, and should be 1. A trailer of 0 records \
         stands at byte 0 (hex 0), and 4080 bytes after it";
    damaged(&trail, 0, &format!("{message}. {SAVING}: here the first 16 bytes"));
}

#[test]
fn a_buffer_saved_whole_that_ends_with_the_trailer_of_an_earlier_trail() {
    let mut trail = three();
    trail[256..272].copy_from_slice(&bytes(&["00000100 00000002 00000000 00000001"]));
    let message =
        "record 2, byte 256 (hex 100): the sequence number is 256, and should be 2. A trailer of 2 records \
         stands at byte 256 (hex 100), and 128 bytes after it";
    damaged(&trail, 2, &format!("{message}. {SAVING}: here the first 272 bytes"));
}

#[test]
fn two_trails_in_one_file() {
    let message = "trailer, byte 784 (hex 310): the distance back to the first record is 384, so the file should \
                   have 400 bytes, but has 800: 400 bytes too many. A trailer of 3 records stands at byte 384 (hex \
                   180), and 400 bytes after it";
    damaged(&[three(), three()].concat(), 0, &format!("{message}. {SAVING}: here the first 400 bytes"));
}

#[test]
fn the_beginning_is_missing() {
    let message = "trailer, byte 256 (hex 100): the distance back to the first record is 384, so the file should \
                   have 400 bytes, but has 272: it is cut short by 128 bytes. No record is found; at byte 0 (hex 0) \
                   stands neither record 0 nor a trailer";
    damaged(&three()[128..], 0, &format!("{message}. {SAVING}"));
}

#[test]
fn the_end_is_missing() {
    let trail = three();
    for length in 0..400 {
        let run = show(&trail[..length], &[]);
        assert_eq!((run.status, run.output.as_str()), (Some(1), ""), "{length}");
        let (records, left) = (length / 128, length % 128);
        let found = ["No record is found", "Record 0 is found", "Records 0 to 1 are found"];
        let found = found.get(records).unwrap_or(&"Records 0 to 2 are found");
        let missing = if left < 16 { 16 - left } else { 144 - left };
        let cut = format!(" more: the file is cut short by {missing} byte");
        let whole = format!("{found}, and the length is right for that number\n");
        let expected = if left == 16 { whole } else { format!("{found}, and {left} byte") };
        assert!(run.messages.contains(&expected), "{length}: {}", run.messages);
        assert!(left == 16 || run.messages.contains(&cut), "{length}: {}", run.messages);
        let missing =
            format!("byte 0 (hex 0): it is missing: a trailer has 16 bytes, and the file has {length}.");
        assert_eq!(run.messages.contains(&missing), length < 16);
    }
}
