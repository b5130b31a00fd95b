//! Figures 7 and 11: fields of ISK and RRB. All keys are 00 at first but where it says otherwise; block 0 has MICBLOK
//! and virtual PSW, block 1 the tables, block 2 the instruction.

use crate::expected::*;

/// Case without the figure's number, and where page and swap word are: the address of the swap word.
const CASES: [(&str, u32); 15] = [
    ("MICRSEG at 0", 0xD18),
    ("SEGPAGE at 4SX, 64K, SX 00", 0xD18),
    ("SEGPAGE at 4SX, 64K, SX 02", 0xD28),
    ("SEGPAGE at 4SX, 64K, SX FF", 0xD18),
    ("SEGPAGE at 4SX, 1M, SX 0, bit 31 one", 0xE18),
    ("SEGPAGE at 4SX, 1M, SX 5, bit 31 one", 0xE18),
    ("SEGPAGE at 4SX, 1M, SX F, bit 31 one", 0xE18),
    ("PAGSWP at -4", 0xD20),
    ("PAGCORE at 2PX, swap word at 8PX, 64K, PX 0", 0xD00),
    ("PAGCORE at 2PX, swap word at 8PX, 64K, PX 1", 0xD08),
    ("PAGCORE at 2PX, swap word at 8PX, 64K, PX F", 0xD78),
    ("PAGCORE at 2PX, swap word at 8PX, 1M, PX 00, bit 31 one", 0xD00),
    ("PAGCORE at 2PX, swap word at 8PX, 1M, PX 23, bit 31 one", 0xE18),
    ("PAGCORE at 2PX, swap word at 8PX, 1M, PX FF, bit 31 one", 0x14F8),
    ("", 0xD18),
];

fn name(figure: u32, mnemonic: &'static str, case: &str) -> (&'static str, &'static str) {
    (mnemonic, format!("figure {figure}: {case}").leak())
}

/// Swap word 90A1B0C0, EC mode. Key 2 is 06, so B6; key 3 is 02, so C2.
pub fn figure_7() -> Vec<Expected> {
    let isk = |case: &str, keys: &[Change], byte: u32| {
        expect(name(7, "ISK", case), COMPLETED, 8, &[], keys, 0x1002).register(3, 0xABCD_EF00 | byte)
    };
    let read = [(0, 0x00, 0x04), (1, 0x00, 0x04)];
    let mut list = Vec::new();
    for (case, _) in CASES {
        // Page FF's swap word is in block 2, whose key has its reference bit already.
        let case = if case.is_empty() { "SWPKEY1 at 8PX+2" } else { case };
        list.push(isk(case, &read, 0xB6));
    }
    list.push(isk("SWPKEY2 at 8PX+3", &read, 0xC2));
    // Swap word 5AC3AD53, key 2 is 53: A8 with 04 OR 02, in BC mode A8.
    list.push(isk("MICVPSW at 8", &read, 0xAE));
    list.push(isk("MICVPSW bits 0-7 ones", &read, 0xAE));
    list.push(isk("VMPSW of 2 bytes at 0, EC, neighbours 00", &read, 0xAE));
    list.push(isk("VMPSW of 2 bytes at 0, BC, neighbours 4C", &read, 0xA8));
    list.push(isk("DAT on, all fields real", &read, 0xB6));
    list
}

/// Swap word 90A1B4C2. Key 4 is 06: 90 OR 0C is 9C, B4 loses its 04, the key too; condition code 3.
pub fn figure_11() -> Vec<Expected> {
    let rrb = |case: &str, count, bytes: &[Change], keys: &[Change], code| {
        expect(name(11, "RRB", case), COMPLETED, count, bytes, keys, 0x1004).condition_code(code)
    };
    let mut list = Vec::new();
    for (case, swap_word) in CASES {
        let case = if case.is_empty() { "SWPFLG at 0 and SWPKEY1 at 2" } else { case };
        let bytes = [(swap_word, 0x90, 0x9C), (swap_word + 2, 0xB4, 0xB0)];
        // Page FF's swap word is in block 2.
        let (key_1, key_2) = if swap_word == 0x14F8 { (0x04, 0x06) } else { (0x06, 0x04) };
        let keys = [(0, 0x00, 0x04), (1, 0x00, key_1), (2, 0x00, key_2), (4, 0x06, 0x02)];
        list.push(rrb(case, 10, &bytes, &keys, 3));
    }
    // Key 5 is 02, change alone: 90 OR 01 is 91; C2 has the change bit alone: nothing else changes, code 1.
    let keys = [(0, 0x00, 0x04), (1, 0x00, 0x06), (2, 0x00, 0x04)];
    list.push(rrb("SWPFLG at 0 and SWPKEY2 at 3", 10, &[(0xD18, 0x90, 0x91)], &keys, 1));
    // Segment and page entry of the second halfword in block 6, the halfword in block A; swap word 90A1B0C0.
    let keys = [(0, 0x00, 0x04), (1, 0x00, 0x06), (4, 0x06, 0x02), (6, 0x00, 0x04), (0xA, 0x00, 0x04)];
    let dat = "DAT on, fields real, instruction logical";
    list.push(rrb(dat, 12, &[(0xD18, 0x90, 0x9C)], &keys, 3));
    list
}
