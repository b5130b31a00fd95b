//! Bit numbering of document 01: bit 0 is leftmost.

/// Bits `first` to `last` of a word, as a number.
#[inline]
pub fn word_bits(word: u32, first: u32, last: u32) -> u32 {
    (word << first) >> (31 - last + first)
}

/// Bits `first` to `last` of a halfword, as a number.
#[inline]
pub fn halfword_bits(halfword: u16, first: u32, last: u32) -> u32 {
    word_bits(u32::from(halfword) << 16, first, last)
}

/// One bit of a word.
#[inline]
pub fn word_bit(word: u32, position: u32) -> bool {
    word_bits(word, position, position) == 1
}

/// One bit of a halfword.
#[inline]
pub fn halfword_bit(halfword: u16, position: u32) -> bool {
    halfword_bits(halfword, position, position) == 1
}

/// Bits that are zero in `old` and one in `new`.
#[inline]
pub fn going_to_one(old: u8, new: u8) -> u8 {
    !old & new
}

/// Bits that are one in `old` and zero in `new`.
#[inline]
pub fn going_to_zero(old: u8, new: u8) -> u8 {
    old & !new
}

#[cfg(test)]
mod tests {
    use super::*;

    #[test]
    fn bit_zero_is_leftmost() {
        assert!(word_bit(0x8000_0000, 0) && !word_bit(0x8000_0000, 1));
        assert!(word_bit(1, 31) && !word_bit(1, 30));
        assert_eq!(word_bits(0x1234_5678, 0, 31), 0x1234_5678);
        assert_eq!(word_bits(0x1234_5678, 8, 31), 0x34_5678);
        assert_eq!(word_bits(0x1234_5678, 8, 11), 3);
        assert!(halfword_bit(0x0008, 12) && !halfword_bit(0x0008, 13));
        assert_eq!(halfword_bits(0xABCD, 0, 3), 0xA);
        assert_eq!(halfword_bits(0xABCD, 4, 15), 0xBCD);
        assert_eq!(going_to_one(0b0011, 0b0101), 0b0100);
        assert_eq!(going_to_zero(0b0011, 0b0101), 0b0010);
    }
}
