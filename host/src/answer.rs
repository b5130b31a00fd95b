//! The result of an attempt, taken apart.

use second::Ending;

/// The numbers of one answer.
#[derive(Clone, Copy, Debug, PartialEq, Eq)]
pub struct Answer {
    /// Number of the ending; 0 is completion.
    pub ending: u8,
    /// Interruption code (ending 1), step or place (ending 3), else zero. The library's has 8 bits, a trail's 16.
    pub code_or_step: u16,
    /// Count of references.
    pub count: u16,
    /// Logical address that codes 16 and 17 carry, else zero.
    pub logical_address: u32,
}

impl Answer {
    /// From the library: ending in bits 63-56, code, step or place in 55-48, count in 47-32, address in 31-0.
    pub fn unpack(result: u64) -> Answer {
        Answer {
            ending: (result >> 56) as u8,
            code_or_step: u16::from((result >> 48) as u8),
            count: (result >> 32) as u16,
            logical_address: result as u32,
        }
    }

    /// What `unpack` took apart.
    pub fn pack(self) -> u64 {
        u64::from(self.ending) << 56
            | u64::from(self.code_or_step) << 48
            | u64::from(self.count) << 32
            | u64::from(self.logical_address)
    }

    /// From the second program. A number too large for its field isn't cut, or it might look right: it
    /// becomes the field's largest, which no rule gives.
    pub fn of_second(ending: Ending, count: usize) -> Answer {
        Answer {
            ending: u8::try_from(ending.number()).unwrap_or(u8::MAX),
            code_or_step: u16::try_from(ending.code_or_step()).unwrap_or(u16::MAX),
            count: u16::try_from(count).unwrap_or(u16::MAX),
            logical_address: ending.logical_address(),
        }
    }

    pub fn completed(self) -> bool {
        self.ending == 0
    }

    /// Whether it has a code, a step or a place.
    pub fn has_code_or_step(self) -> bool {
        matches!(self.ending, 1 | 3)
    }

    /// Whether it has a logical address.
    pub fn has_logical_address(self) -> bool {
        self.ending == 1 && matches!(self.code_or_step, 16 | 17)
    }
}

#[cfg(test)]
mod tests {
    use super::*;
    use second::{Exception, NotThere};

    #[test]
    fn each_field_comes_from_its_bits() {
        let answer = Answer { ending: 1, code_or_step: 17, count: 0x0203, logical_address: 0x0405_0607 };
        assert_eq!(Answer::unpack(0x0111_0203_0405_0607), answer);
        let fields = |result| {
            let Answer { ending, code_or_step, count, logical_address } = Answer::unpack(result);
            (ending, code_or_step, count, logical_address)
        };
        assert_eq!(fields(0), (0, 0, 0, 0));
        assert_eq!(fields(0xFF00_0000_0000_0000), (0xFF, 0, 0, 0));
        assert_eq!(fields(0x00FF_0000_0000_0000), (0, 0xFF, 0, 0));
        assert_eq!(fields(0x0000_FFFF_0000_0000), (0, 0, 0xFFFF, 0));
        assert_eq!(fields(0x0000_0000_FFFF_FFFF), (0, 0, 0, 0xFFFF_FFFF));
        for result in [0, 0x0111_0203_0405_0607, 0xFEDC_BA98_7654_3210, u64::MAX] {
            assert_eq!(Answer::unpack(result).pack(), result);
        }
    }

    #[test]
    fn the_second_programs_endings_have_the_papers_numbers() {
        let segment = Exception::SegmentTranslation { logical_address: 0x01_2345 };
        for (ending, packed) in [
            (Ending::Completed, 0x0000_0007_0000_0000),
            (Ending::REFUSE, 0x0102_0007_0000_0000),
            (Ending::Interruption(segment), 0x0110_0007_0001_2345),
            (Ending::ExpandedAssist, 0x0200_0007_0000_0000),
            (Ending::NotInStorage(NotThere::Step(11)), 0x030B_0007_0000_0000),
            (Ending::NotInStorage(NotThere::Place(8)), 0x0308_0007_0000_0000),
            (Ending::OperationCode, 0x0D00_0007_0000_0000),
        ] {
            assert_eq!(Answer::of_second(ending, 7), Answer::unpack(packed));
        }
    }

    #[test]
    fn a_count_without_room_is_not_cut() {
        assert_eq!(Answer::of_second(Ending::Completed, 0x1_0000).count, u16::MAX);
        assert!(Answer::of_second(Ending::Completed, 0).completed());
        assert!(!Answer::of_second(Ending::REFUSE, 0).completed());
    }
}
