//! Figure 6: what ISK inserts, bit by bit: one bit of the virtual key alone, one bit of the real key alone. Random
//! words have several bits at once, so that a wrong bit would seldom show.

use super::FixedList;
use crate::setup::{Setup, PAGE_ENTRY, SWAP_WORD, VIRTUAL_BC, VIRTUAL_EC};

/// A column and a row of the figure: bit 20, mode, page.
#[derive(Clone, Copy)]
struct Row {
    bit_20: bool,
    mode: (&'static str, u8),
    page_valid: bool,
}

pub fn cases() -> Vec<FixedList> {
    let mut cases = Vec::new();
    for mode in [("EC", VIRTUAL_EC), ("BC", VIRTUAL_BC)] {
        for page_valid in [true, false] {
            for bit_20 in [false, true] {
                let row = Row { bit_20, mode, page_valid };
                cases.extend((0..8).map(|bit| row.virtual_key_bit(bit)));
                if page_valid {
                    cases.extend((0..8).map(|bit| row.real_key_bit(bit)));
                } else {
                    cases.push(row.all_real_bits());
                }
            }
        }
    }
    cases
}

impl Row {
    /// The word has this virtual key in its byte; the other three bytes have the bits that it has not.
    fn setup(self, virtual_key: u8, real_key: u8) -> Setup {
        let mut bytes = [!virtual_key; 4];
        bytes[2 + usize::from(self.bit_20)] = virtual_key;
        let mut setup = Setup::isk(self.mode.1).register(4, 0x5A02_3000 | u32::from(self.bit_20) << 11);
        // So do the other keys beside the page's.
        for number in 0..8 {
            setup = setup.key(number, !real_key);
        }
        let page_entry = if self.page_valid { 0x0010 } else { 0x0018 };
        setup
            .key(2 + u32::from(self.bit_20), real_key)
            .word(SWAP_WORD, u32::from_be_bytes(bytes))
            .halfword(PAGE_ENTRY, page_entry)
    }

    fn list(self, case: &str, setup: &Setup) -> FixedList {
        let page = if self.page_valid { "page valid" } else { "page invalid" };
        let bit_20 = if self.bit_20 { "one" } else { "zero" };
        FixedList::one(&format!("figure 6: {}, {page}, bit 20 {bit_20}, {case}", self.mode.0), setup, &[])
    }

    fn virtual_key_bit(self, bit: u32) -> FixedList {
        self.list(&format!("virtual key bit {bit} alone"), &self.setup(0x80 >> bit, 0x00))
    }

    fn real_key_bit(self, bit: u32) -> FixedList {
        self.list(&format!("real key bit {bit} alone"), &self.setup(0x00, 0x80 >> bit))
    }

    fn all_real_bits(self) -> FixedList {
        self.list("real key FF", &self.setup(0x00, 0xFF))
    }
}
