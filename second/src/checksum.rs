//! CRC-32 (ISO-HDLC, as in zlib): polynomial EDB88320 reflected, all ones at the start, complemented at the end.

/// `TABLES[0]` is the table for one byte; `TABLES[n]` that for a byte followed by n zero bytes.
const TABLES: [[u32; 256]; 8] = tables();

const fn tables() -> [[u32; 256]; 8] {
    let mut tables = [[0; 256]; 8];
    let mut byte = 0;
    while byte < 256 {
        let mut value = byte as u32;
        let mut bit = 0;
        while bit < 8 {
            value = if value & 1 == 1 { (value >> 1) ^ 0xEDB8_8320 } else { value >> 1 };
            bit += 1;
        }
        tables[0][byte] = value;
        byte += 1;
    }
    let mut entry = 256;
    while entry < 8 * 256 {
        let before = tables[entry / 256 - 1][entry % 256];
        tables[entry / 256][entry % 256] = (before >> 8) ^ tables[0][(before & 0xFF) as usize];
        entry += 1;
    }
    tables
}

/// A checksum under way.
#[derive(Clone, Copy, Debug)]
pub struct Checksum {
    state: u32,
}

impl Default for Checksum {
    fn default() -> Checksum {
        Checksum { state: u32::MAX }
    }
}

impl Checksum {
    /// Take in more bytes, eight at a time as far as they go.
    pub fn add(&mut self, bytes: &[u8]) {
        let mut state = self.state;
        let mut eights = bytes.chunks_exact(8);
        for eight in &mut eights {
            let [a, b, c, d] = state.to_le_bytes();
            state = TABLES[7][usize::from(eight[0] ^ a)]
                ^ TABLES[6][usize::from(eight[1] ^ b)]
                ^ TABLES[5][usize::from(eight[2] ^ c)]
                ^ TABLES[4][usize::from(eight[3] ^ d)]
                ^ TABLES[3][usize::from(eight[4])]
                ^ TABLES[2][usize::from(eight[5])]
                ^ TABLES[1][usize::from(eight[6])]
                ^ TABLES[0][usize::from(eight[7])];
        }
        for &byte in eights.remainder() {
            state = (state >> 8) ^ TABLES[0][usize::from(byte ^ state as u8)];
        }
        self.state = state;
    }

    pub fn value(self) -> u32 {
        !self.state
    }
}

/// The checksum of some bytes.
pub fn checksum(bytes: &[u8]) -> u32 {
    let mut sum = Checksum::default();
    sum.add(bytes);
    sum.value()
}

#[cfg(test)]
mod tests {
    use super::*;

    #[test]
    fn known_values() {
        assert_eq!(checksum(b"123456789"), 0xCBF4_3926);
        assert_eq!(checksum(b""), 0);
        assert_eq!(checksum(b"a"), 0xE8B7_BE43);
        assert_eq!(checksum(&[0; 32]), 0x190A_55AD);
    }

    #[test]
    fn pieces_make_the_whole() {
        let bytes: Vec<u8> = (0..=255).collect();
        for cut in 0..=bytes.len() {
            let mut sum = Checksum::default();
            sum.add(&bytes[..cut]);
            sum.add(&bytes[cut..]);
            assert_eq!(sum.value(), checksum(&bytes));
        }
    }
}
