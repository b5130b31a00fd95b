//! The form of a trail: records of 128 bytes, and right after the last one a trailer of 16. Numbers are
//! big-endian.

use crate::answer::Answer;
use crate::record::Record;

pub const RECORD_BYTES: u64 = 128;
pub const TRAILER_BYTES: u64 = 16;

pub type RecordBytes = [u8; RECORD_BYTES as usize];
pub type TrailerBytes = [u8; TRAILER_BYTES as usize];

/// Where the fields of a record begin.
pub const SEQUENCE: usize = 0;
const GUEST_NUMBER: usize = 4;
const FIRST_HALFWORD: usize = 8;
pub const EXPANDED_FLAG: usize = 10;
const ENDING: usize = 11;
const CODE_OR_STEP: usize = 12;
const COUNT: usize = 14;
const NEXT_ADDRESS: usize = 16;
const TRANSLATION_ADDRESS: usize = 20;
const BEFORE: usize = 24;
pub const ZEROS: usize = 108;

/// Where the fields of the trailer begin.
pub const DISTANCE: usize = 0;
pub const HELD: usize = 4;
const TURNED_AWAY: usize = 8;
pub const VERSION: usize = 12;

/// One call, as it was written down.
#[derive(Clone, Debug, PartialEq, Eq)]
pub struct TrailRecord {
    pub sequence: u32,
    pub guest_number: u32,
    pub first_halfword: u16,
    /// 1 if the expanded assist is installed, else 0.
    pub expanded_flag: u8,
    /// Ending, code or step and count; the translation address is its logical address.
    pub answer: Answer,
    pub next_address: u32,
    /// PSW, general registers and control registers before the call.
    pub before: Record,
    pub zeros: [u8; 20],
}

#[derive(Clone, Copy, Debug, PartialEq, Eq)]
pub struct Trailer {
    /// Bytes back to the first record.
    pub distance: u32,
    pub held: u32,
    /// Calls that weren't written down, for want of room. Once at its largest the number stays there.
    pub turned_away: u32,
    pub version: u32,
}

impl TrailRecord {
    pub fn of(bytes: &RecordBytes) -> TrailRecord {
        TrailRecord {
            sequence: word(bytes, SEQUENCE),
            guest_number: word(bytes, GUEST_NUMBER),
            first_halfword: halfword(bytes, FIRST_HALFWORD),
            expanded_flag: bytes[EXPANDED_FLAG],
            answer: Answer {
                ending: bytes[ENDING],
                code_or_step: halfword(bytes, CODE_OR_STEP),
                count: halfword(bytes, COUNT),
                logical_address: word(bytes, TRANSLATION_ADDRESS),
            },
            next_address: word(bytes, NEXT_ADDRESS),
            before: std::array::from_fn(|place| word(bytes, BEFORE + 4 * place)),
            zeros: array(bytes, ZEROS),
        }
    }
}

impl Trailer {
    pub fn of(bytes: &TrailerBytes) -> Trailer {
        Trailer {
            distance: word(bytes, DISTANCE),
            held: word(bytes, HELD),
            turned_away: word(bytes, TURNED_AWAY),
            version: word(bytes, VERSION),
        }
    }
}

/// The byte at which a record begins; after the last one, the trailer.
pub fn start_of(record: u64) -> u64 {
    record * RECORD_BYTES
}

/// The word at a place.
pub fn word(bytes: &[u8], at: usize) -> u32 {
    u32::from_be_bytes(array(bytes, at))
}

fn halfword(bytes: &[u8], at: usize) -> u16 {
    u16::from_be_bytes(array(bytes, at))
}

fn array<const N: usize>(bytes: &[u8], at: usize) -> [u8; N] {
    std::array::from_fn(|place| bytes[at + place])
}

#[cfg(test)]
mod tests {
    use super::*;

    #[test]
    fn each_field_comes_from_its_bytes() {
        let bytes: RecordBytes = std::array::from_fn(|place| 0x80 + place as u8);
        let expected = TrailRecord {
            sequence: 0x8081_8283,
            guest_number: 0x8485_8687,
            first_halfword: 0x8889,
            expanded_flag: 0x8A,
            answer: Answer {
                ending: 0x8B,
                code_or_step: 0x8C8D,
                count: 0x8E8F,
                logical_address: 0x9495_9697,
            },
            next_address: 0x9091_9293,
            before: [
                0x9899_9A9B,
                0x9C9D_9E9F,
                0xA0A1_A2A3,
                0xA4A5_A6A7,
                0xA8A9_AAAB,
                0xACAD_AEAF,
                0xB0B1_B2B3,
                0xB4B5_B6B7,
                0xB8B9_BABB,
                0xBCBD_BEBF,
                0xC0C1_C2C3,
                0xC4C5_C6C7,
                0xC8C9_CACB,
                0xCCCD_CECF,
                0xD0D1_D2D3,
                0xD4D5_D6D7,
                0xD8D9_DADB,
                0xDCDD_DEDF,
                0xE0E1_E2E3,
                0xE4E5_E6E7,
                0xE8E9_EAEB,
            ],
            zeros: std::array::from_fn(|place| 0xEC + place as u8),
        };
        assert_eq!(TrailRecord::of(&bytes), expected);
    }

    #[test]
    fn the_trailers_four_numbers() {
        let bytes = [0, 0, 1, 0, 0, 0, 0, 2, 0xFF, 0xFF, 0xFF, 0xFF, 0, 0, 0, 1];
        let expected = Trailer { distance: 256, held: 2, turned_away: u32::MAX, version: 1 };
        assert_eq!(Trailer::of(&bytes), expected);
    }

    #[test]
    fn records_lie_side_by_side() {
        assert_eq!((start_of(0), start_of(1), start_of(1 << 32)), (0, 128, 1 << 39));
    }
}
