//! Figure 10: what RRB does to key, swap word and condition code, bit by bit: one bit alone, and one bit zero among
//! ones.

use super::FixedList;
use crate::setup::{Setup, PAGE_ENTRY, SWAP_WORD};

pub fn cases() -> Vec<FixedList> {
    let mut cases = Vec::new();
    for bit_20 in [false, true] {
        // Byte 0 with the backup bits, and the virtual key's byte.
        let virtual_key = if bit_20 { 24..32 } else { 16..24 };
        for bit in (0..8).chain(virtual_key) {
            let word = 0x8000_0000 >> bit;
            cases.push(one_case(bit_20, &format!("swap word bit {bit} alone"), word, 0x00));
            cases.push(one_case(
                bit_20,
                &format!("swap word bit {bit} zero among ones, key 06"),
                !word,
                0x06,
            ));
        }
        for bit in 0..8 {
            let key = 0x80 >> bit;
            cases.push(one_case(bit_20, &format!("key bit {bit} alone"), 0x0000_0000, key));
            cases.push(one_case(bit_20, &format!("key bit {bit} zero among ones, swap word ones"), !0, !key));
        }
        cases.extend([0x0000_0000, 0xFFFF_FFFF].map(|swap_word| invalid_page(bit_20, swap_word)));
    }
    cases
}

/// Every other key has the bits that the page's key has not.
fn rrb(bit_20: bool, swap_word: u32, key: u8) -> Setup {
    let mut setup = Setup::rrb().operand(0x02_3000 | u32::from(bit_20) << 11).word(SWAP_WORD, swap_word);
    for number in 0..8 {
        setup = setup.key(number, !key);
    }
    setup.key(4 + u32::from(bit_20), key)
}

fn one_case(bit_20: bool, case: &str, swap_word: u32, key: u8) -> FixedList {
    let bit_20_words = if bit_20 { "one" } else { "zero" };
    let case = format!("figure 10: bit 20 {bit_20_words}, {case}");
    FixedList::one(&case, &rrb(bit_20, swap_word, key), &[])
}

fn invalid_page(bit_20: bool, swap_word: u32) -> FixedList {
    let bit_20_words = if bit_20 { "one" } else { "zero" };
    let case = format!("figure 10: bit 20 {bit_20_words}, page invalid, swap word {swap_word:08X}, key FF");
    FixedList::one(&case, &rrb(bit_20, swap_word, 0xFF).halfword(PAGE_ENTRY, 0x0028), &[])
}
