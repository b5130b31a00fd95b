//! Figure 13: bits and byte of the swap word for SSK, bit 20 of the second operand zero and one.

use super::layout::around;
use super::{Field, FixedList};
use crate::setup::{Setup, SWAP_TABLE};

/// Old keys: neither bit, reference (bit 5) alone, change (bit 6) alone, both; bit 7 zero and one.
const OLD_KEYS: [u8; 4] = [0xC1, 0xC4, 0xC2, 0xC7];

/// Swap word of page 3, at 8 times the page index.
const SWAP_WORD: Field = Field { name: "swap word", address: SWAP_TABLE + 8 * 3, length: 4 };

pub fn cases() -> Vec<FixedList> {
    let mut cases = Vec::new();
    // All zero; ones but for the two backup bits of this set; all ones.
    for (bit_20, swap_words) in
        [(false, [0, 0xF3FF_FFFF, 0xFFFF_FFFF]), (true, [0, 0xFCFF_FFFF, 0xFFFF_FFFF])]
    {
        for swap_word in swap_words {
            cases.extend(OLD_KEYS.map(|old_key| valid_page(bit_20, old_key, swap_word)));
        }
    }
    cases.extend([false, true].map(invalid_page));
    cases
}

/// Bit 20 is one for the upper half of the page, whose block has the next key.
fn ssk(bit_20: bool) -> Setup {
    let mut setup = around(Setup::ssk(), SWAP_WORD, 0x5A);
    if bit_20 {
        setup.guest.general_registers[4] |= 0x800;
    }
    setup
}

fn bit_20_words(bit_20: bool) -> &'static str {
    if bit_20 {
        "bit 20 one"
    } else {
        "bit 20 zero"
    }
}

fn valid_page(bit_20: bool, old_key: u8, swap_word: u32) -> FixedList {
    let mut setup = ssk(bit_20).word(SWAP_WORD.address, swap_word);
    // Every other key has the opposite reference and change bits.
    for number in 0..8 {
        setup = setup.key(number, 0x90 | !old_key & 0x06);
    }
    let setup = setup.key(2 + u32::from(bit_20), old_key);
    let case =
        format!("figure 13: {}, old key {old_key:02X}, swap word {swap_word:08X}", bit_20_words(bit_20));
    FixedList::one(&case, &setup, &[])
}

/// Page entry bit 12 one: both bits count as zero, whatever the key of the frame.
fn invalid_page(bit_20: bool) -> FixedList {
    let mut setup = ssk(bit_20).word(SWAP_WORD.address, 0xF0E1_D2C3).halfword(0xC16, 0x0018);
    for number in 0..8 {
        setup = setup.key(number, 0x96);
    }
    let case = format!("figure 13: {}, invalid page, swap word F0E1D2C3", bit_20_words(bit_20));
    FixedList::one(&case, &setup, &[])
}
