//! What makes a trail sound, tested in order; and what is wrong, and where, if it isn't.

use std::fmt;

use super::form::{
    start_of, TrailRecord, Trailer, DISTANCE, EXPANDED_FLAG, HELD, SEQUENCE, TRAILER_BYTES, VERSION, ZEROS,
};
use crate::words::counted;

/// What is wrong with a trail, in which part, and at which byte of the file.
#[derive(Clone, Debug, PartialEq, Eq)]
pub struct Fault {
    pub part: Part,
    pub offset: u64,
    pub what: String,
}

#[derive(Clone, Copy, Debug, PartialEq, Eq)]
pub enum Part {
    Trailer,
    /// The record at this place, from 0.
    Record(u32),
}

/// The last 16 bytes of a file of this length: version, distance, length.
pub fn check_trailer(trailer: &Trailer, length: u64) -> Result<(), Fault> {
    let offset_of = |field: usize| length - TRAILER_BYTES + field as u64;
    let fault =
        |field: usize, what: String| Err(Fault { part: Part::Trailer, offset: offset_of(field), what });
    let Trailer { distance, held, version, .. } = *trailer;
    if version != 1 {
        return fault(VERSION, format!("the version is {version}, and should be 1"));
    }
    let found = format!("the distance back to the first record is {distance}");
    let wanted = start_of(held.into());
    if u64::from(distance) != wanted {
        let number = format!("the number of records, which is {held} at {}", place(offset_of(HELD)));
        return fault(DISTANCE, format!("{found}, and should be {wanted}, 128 times {number}"));
    }
    let wanted = wanted + TRAILER_BYTES;
    if length != wanted {
        let bytes = counted(length.abs_diff(wanted), "byte");
        let by = match length < wanted {
            true => format!("it is cut short by {bytes}"),
            false => format!("{bytes} too many"),
        };
        return fault(
            DISTANCE,
            format!("{found}, so the file should have {wanted} bytes, but has {length}: {by}"),
        );
    }
    Ok(())
}

/// A file too short for a trailer.
pub fn missing_trailer(length: u64) -> Fault {
    let what = format!("it is missing: a trailer has 16 bytes, and the file has {length}");
    Fault { part: Part::Trailer, offset: 0, what }
}

/// The record at a place, from 0: sequence, expanded flag, zeros.
pub fn check_record(record: &TrailRecord, number: u32) -> Result<(), Fault> {
    let fault = |field: usize, what: String| {
        let offset = start_of(number.into()) + field as u64;
        Err(Fault { part: Part::Record(number), offset, what })
    };
    let TrailRecord { sequence, expanded_flag, zeros, .. } = record;
    if *sequence != number {
        return fault(SEQUENCE, format!("the sequence number is {sequence}, and should be {number}"));
    }
    if *expanded_flag > 1 {
        return fault(EXPANDED_FLAG, format!("the expanded flag is {expanded_flag}, and should be 0 or 1"));
    }
    match zeros.iter().position(|&zero| zero != 0) {
        Some(at) => fault(ZEROS + at, format!("one of the 20 zeros is {:02X}, and should be 00", zeros[at])),
        None => Ok(()),
    }
}

/// A place in the file: `byte 384 (hex 180)`.
pub fn place(offset: u64) -> String {
    format!("byte {offset} (hex {offset:X})")
}

impl fmt::Display for Fault {
    fn fmt(&self, form: &mut fmt::Formatter) -> fmt::Result {
        match self.part {
            Part::Trailer => write!(form, "trailer")?,
            Part::Record(number) => write!(form, "record {number}")?,
        }
        write!(form, ", {}: {}", place(self.offset), self.what)
    }
}

#[cfg(test)]
mod tests {
    use super::*;
    use crate::answer::Answer;

    const SOUND: Trailer = Trailer { distance: 256, held: 2, turned_away: 7, version: 1 };

    fn words(result: Result<(), Fault>) -> String {
        result.expect_err("a fault").to_string()
    }

    fn record() -> TrailRecord {
        TrailRecord {
            sequence: 3,
            guest_number: u32::MAX,
            first_halfword: 0xFFFF,
            expanded_flag: 1,
            answer: Answer { ending: 255, code_or_step: 0xFFFF, count: 0xFFFF, logical_address: u32::MAX },
            next_address: u32::MAX,
            before: [u32::MAX; 21],
            zeros: [0; 20],
        }
    }

    #[test]
    fn sound_trailers() {
        assert_eq!(check_trailer(&SOUND, 272), Ok(()));
        assert_eq!(check_trailer(&Trailer { distance: 0, held: 0, ..SOUND }, 16), Ok(()));
        let largest = Trailer { distance: 0xFFFF_FF80, held: 0x01FF_FFFF, ..SOUND };
        assert_eq!(check_trailer(&largest, 0xFFFF_FF90), Ok(()));
    }

    #[test]
    fn version_then_distance_then_length() {
        let version = Trailer { version: 2, distance: 300, ..SOUND };
        assert_eq!(
            words(check_trailer(&version, 273)),
            "trailer, byte 269 (hex 10D): the version is 2, and should be 1"
        );
        let distance = Trailer { distance: 300, ..SOUND };
        assert_eq!(
            words(check_trailer(&distance, 273)),
            "trailer, byte 257 (hex 101): the distance back to the first record is 300, and should be 256, 128 \
             times the number of records, which is 2 at byte 261 (hex 105)"
        );
        assert_eq!(
            words(check_trailer(&SOUND, 273)),
            "trailer, byte 257 (hex 101): the distance back to the first record is 256, so the file should have \
             272 bytes, but has 273: 1 byte too many"
        );
        assert_eq!(
            words(check_trailer(&SOUND, 16)),
            "trailer, byte 0 (hex 0): the distance back to the first record is 256, so the file should have \
             272 bytes, but has 16: it is cut short by 256 bytes"
        );
    }

    #[test]
    fn a_number_of_records_whose_bytes_no_distance_can_be() {
        let many = Trailer { distance: 0, held: 0x0200_0000, ..SOUND };
        assert!(words(check_trailer(&many, 16)).contains(" is 0, and should be 4294967296, "));
    }

    #[test]
    fn no_trailer() {
        let expected = "trailer, byte 0 (hex 0): it is missing: a trailer has 16 bytes, and the file has 15";
        assert_eq!(missing_trailer(15).to_string(), expected);
    }

    #[test]
    fn sequence_then_flag_then_zeros() {
        assert_eq!(check_record(&record(), 3), Ok(()));
        let mut bad = record();
        (bad.sequence, bad.expanded_flag, bad.zeros[19]) = (0, 2, 0xAB);
        let sequence = "record 3, byte 384 (hex 180): the sequence number is 0, and should be 3";
        assert_eq!(words(check_record(&bad, 3)), sequence);
        bad.sequence = 3;
        let flag = "record 3, byte 394 (hex 18A): the expanded flag is 2, and should be 0 or 1";
        assert_eq!(words(check_record(&bad, 3)), flag);
        bad.expanded_flag = 0;
        let zeros = "record 3, byte 511 (hex 1FF): one of the 20 zeros is AB, and should be 00";
        assert_eq!(words(check_record(&bad, 3)), zeros);
        bad.zeros[0] = 1;
        let zeros = "record 3, byte 492 (hex 1EC): one of the 20 zeros is 01, and should be 00";
        assert_eq!(words(check_record(&bad, 3)), zeros);
    }
}
