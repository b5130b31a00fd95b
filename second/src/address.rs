//! Address sums: "all address sums are modulo 2^24, byte by byte".

/// The largest 24-bit address.
pub const ADDRESS_MASK: u32 = 0x00FF_FFFF;

/// Bytes in one block that has a storage key.
pub const KEY_BLOCK: u32 = 2048;

/// Sum of an address and an offset, modulo 2^24.
#[inline]
pub fn add(address: u32, offset: u32) -> u32 {
    address.wrapping_add(offset) & ADDRESS_MASK
}

/// Difference of an address and an offset, modulo 2^24.
#[inline]
pub fn subtract(address: u32, offset: u32) -> u32 {
    address.wrapping_sub(offset) & ADDRESS_MASK
}

/// The byte addresses of an item that starts at `address`, each sum modulo 2^24.
pub fn bytes_of_item(address: u32, length: u32) -> impl Iterator<Item = u32> {
    (0..length).map(move |offset| add(address, offset))
}

#[cfg(test)]
mod tests {
    use super::*;

    #[test]
    fn sums_go_round_at_two_to_the_24() {
        assert_eq!(add(0xFF_FFFF, 1), 0);
        assert_eq!(add(0xFF_FFFC, 0xFFF), 0xFFB);
        assert_eq!(add(0xFFFF_FFFF, 2), 1);
        assert_eq!(subtract(0, 4), 0xFF_FFFC);
        assert!(bytes_of_item(0xFF_FFFE, 4).eq([0xFF_FFFE, 0xFF_FFFF, 0, 1]));
    }
}
