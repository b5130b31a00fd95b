//! What comes back when a trail is started and from a writing call, taken apart.

/// The refusal's number and the number of records held.
///
/// It is kept packed: so two of them are the same only if the bits between these are zero in both.
#[derive(Clone, Copy, Debug, PartialEq, Eq)]
pub struct Written {
    packed: u64,
}

/// How a writing call ended.
#[derive(Clone, Copy, Debug, PartialEq, Eq, PartialOrd, Ord)]
pub enum WritingEnding {
    WentIn,
    TurnedAway,
    /// By this number.
    Refused(u8),
}

impl Written {
    /// From the library: refusal in bits 63-56, number of records held in 31-0.
    pub fn unpack(result: u64) -> Written {
        Written { packed: result }
    }

    /// From the second program.
    pub fn of_second(written: second::trail::Written) -> Written {
        Written { packed: u64::from(written.refusal) << 56 | u64::from(written.held) }
    }

    /// Zero where there is none.
    pub fn refusal(self) -> u8 {
        (self.packed >> 56) as u8
    }

    /// The number handed back, to be given with the next call; for a refusal, the number given.
    pub fn held(self) -> u32 {
        self.packed as u32
    }

    /// How the writing call ended to which `given` was given.
    pub fn ending(self, given: u32) -> WritingEnding {
        match self.refusal() {
            0 if self.held() == given => WritingEnding::TurnedAway,
            0 => WritingEnding::WentIn,
            number => WritingEnding::Refused(number),
        }
    }

    /// Both numbers, and all bits.
    pub fn words(self) -> String {
        format!("refusal {}, held {} ({:016X})", self.refusal(), self.held(), self.packed)
    }
}

#[cfg(test)]
mod tests {
    use super::*;

    #[test]
    fn each_number_comes_from_its_bits() {
        let written = Written::unpack(0x1401_0203_0405_0607);
        assert_eq!((written.refusal(), written.held()), (20, 0x0405_0607));
        assert_eq!(written.words(), "refusal 20, held 67438087 (1401020304050607)");
        let second = second::trail::Written { refusal: 20, held: 0x0405_0607 };
        assert_eq!(Written::of_second(second), Written::unpack(0x1400_0000_0405_0607));
        assert_ne!(Written::of_second(second), written, "the bits between count");
    }

    #[test]
    fn endings() {
        assert_eq!(Written::unpack(6).ending(5), WritingEnding::WentIn);
        assert_eq!(Written::unpack(5).ending(5), WritingEnding::TurnedAway);
        assert_eq!(Written::unpack(0x1500_0000_0000_0005).ending(5), WritingEnding::Refused(21));
    }
}
