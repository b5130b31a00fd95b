//! Edges of ISK (document 02, R-4; steps of document 002). MICRSEG and MICVPSW are at 400 and 408, the virtual PSW at
//! 600: block 0. The segment entry is at 808, the swap-table address at C0C, the page entry at C16, the swap word at
//! D18: block 1. The page is in blocks 2 and 3. All keys are 00 at first but where it says otherwise; ISK stores
//! nothing.

use crate::expected::*;

/// Steps 2, 5, 7, 8, 9, 11, 12, 13: eight entries, of an invalid page without 11: seven.
const VALID: usize = 8;
const INVALID: usize = 7;

const READ: [Change; 2] = [(0, 0x00, 0x04), (1, 0x00, 0x04)];

fn completed(case: &'static str, count: usize, register_3: u32) -> Expected {
    expect(("ISK", case), COMPLETED, count, &[], &READ, 0x1002).register(3, register_3)
}

fn ended(case: &'static str, ending: (u32, u32, u32), count: usize, keys: &[Change]) -> Expected {
    expect(("ISK", case), ending, count, &[], keys, 0x1000)
}

pub fn insert_storage_key() -> Vec<Expected> {
    let mut list = figure_6();
    list.extend(registers());
    list.extend(places());
    list.extend(refusals_and_segments());
    list.extend(page_entries());
    list.extend(own_block());
    list
}

/// Byte 2 is AD: 10101 10 1; byte 3 is 53: 01010 01 1. Key 53 has the change bit (02), key A5 the reference bit (04).
fn figure_6() -> Vec<Expected> {
    vec![
        // A8, and 04 OR 02; 50, and 02 OR 04.
        completed("EC, page valid, bit 20 zero, swap word 5AC3AD53, key 53", VALID, 0xABCD_EFAE),
        completed("EC, page valid, bit 20 one, swap word 5AC3AD53, key A5", VALID, 0xABCD_EF56),
        // The virtual bits alone.
        completed("EC, page invalid, bit 20 zero, swap word 5AC3AD53, key 53", INVALID, 0xABCD_EFAC),
        completed("EC, page invalid, bit 20 one, swap word 5AC3AD53, key A5", INVALID, 0xABCD_EF52),
        // Zeros.
        completed("BC, page valid, bit 20 zero, swap word 5AC3AD53, key 53", VALID, 0xABCD_EFA8),
        completed("BC, page valid, bit 20 one, swap word 5AC3AD53, key A5", VALID, 0xABCD_EF50),
        completed("BC, page invalid, bit 20 zero, swap word 5AC3AD53, key 53", INVALID, 0xABCD_EFA8),
        completed("BC, page invalid, bit 20 one, swap word 5AC3AD53, key A5", INVALID, 0xABCD_EF50),
        // A9 is 10101 00 1, and key 50 has neither bit.
        completed("EC, page valid, bit 20 zero, swap word 5AC3A9FF, key 50", VALID, 0xABCD_EFA8),
    ]
}

/// Bits 0-23 of the address stay, bits 24-31 become AE.
fn registers() -> Vec<Expected> {
    let both = |case, number| {
        expect(("ISK", case), COMPLETED, VALID, &[], &READ, 0x1002).register(number, 0x5A02_30AE)
    };
    vec![both("R1 and R2 register 4", 4), both("R1 and R2 register 15", 15), both("R1 and R2 register 0", 0)]
}

/// The entries are those of the fields before. With the page invalid the key block has not been tried.
fn places() -> Vec<Expected> {
    // MICRSEG at 3FF8 in block 7, and the tables.
    let micblok_in_7 = [(1, 0x00, 0x04), (7, 0x00, 0x04)];
    vec![
        ended("MICBLOK at 4000", (3, 1, 0), 0, &[]),
        ended("segment table at 4000", (3, 2, 0), 1, &READ[..1]),
        ended("page table at 0, the swap table's address at FFFFFC", (3, 3, 0), 2, &READ),
        ended("swap word at 3FFF", (3, 4, 0), 3, &READ),
        // The swap-table address is at 3FFC, in block 7.
        ended("page table at 4000", (3, 5, 0), 4, &[(0, 0x00, 0x04), (1, 0x00, 0x04), (7, 0x00, 0x04)]),
        ended("page in frame 0FF", (3, 6, 0), 5, &READ),
        ended("page valid, MICVPSW at 4000", (3, 7, 0), 6, &micblok_in_7),
        ended("page invalid, MICVPSW at 4000", (3, 6, 0), 5, &micblok_in_7),
        ended("page valid, virtual PSW at 3FFF", (3, 8, 0), 7, &READ),
        ended("page invalid, virtual PSW at 3FFF", (3, 7, 0), 6, &READ),
    ]
}

fn refusals_and_segments() -> Vec<Expected> {
    vec![
        // Step 1.
        ended("R2 bits 28-31 0001", REFUSED, 0, &[]),
        ended("control register 6 bits 0-3 1010", REFUSED, 0, &[]),
        // 100X: bit 3 does not matter.
        completed("control register 6 bits 0-3 1001", VALID, 0xABCD_EFAE),
        // Step 3, after MICRSEG; step 4 likewise: address bits 8-11 are 1.
        ended("MICRSEG bit 30 one", REFUSED, 1, &READ[..1]),
        ended("64K segments, length 00, address 123000", REFUSED, 1, &READ[..1]),
        completed("64K segments, length 01, address 123000", VALID, 0xABCD_EFAE),
        // No such test.
        completed("1M segments, length 00, address 123000", VALID, 0xABCD_EFAE),
    ]
}

/// Step 10: bit 13 one in a valid entry. 001E has bit 12 one, so bits 13-14 are not looked at.
fn page_entries() -> Vec<Expected> {
    vec![ended("page entry 0014", REFUSED, 5, &READ), completed("page entry 001E", INVALID, 0xABCD_EFAC)]
}

/// The virtual key is A9, without either bit; the key is 50 before the call.
fn own_block() -> Vec<Expected> {
    let own = |case, keys: &[Change], register_3| {
        expect(("ISK", case), COMPLETED, VALID, &[], keys, 0x1002).register(3, register_3)
    };
    vec![
        // MICRSEG's fetch has recorded in block 0; the tables' fetches in block 1.
        own("MICBLOK in the page's own block", &[(0, 0x50, 0x54), (1, 0x00, 0x04)], 0xABCD_EFAC),
        own("tables in the page's own block", &[(0, 0x00, 0x04), (1, 0x50, 0x54)], 0xABCD_EFAC),
        // Step 13 comes after step 11.
        own(
            "virtual PSW in the page's own block",
            &[(0, 0x00, 0x04), (1, 0x00, 0x04), (2, 0x50, 0x54)],
            0xABCD_EFA8,
        ),
    ]
}

/// The swap word is at FFFFFE to 000001: blocks 1FFF and 0.
pub fn large_insert_storage_key() -> Expected {
    let keys = [(0x0, 0x00, 0x04), (0x1, 0x00, 0x04), (0x1FFF, 0x00, 0x04)];
    let case = "EC, page valid, bit 20 zero, swap word 5AC3AD53 at FFFFFE, key 53";
    expect(("ISK", case), COMPLETED, VALID, &[], &keys, 0x1002).register(3, 0xABCD_EFAE)
}
