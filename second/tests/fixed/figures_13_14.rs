//! SSK 3,4 of address 023000, R1 low byte 3F: access and fetch bits 38, virtual key 3E. Page 3's swap word is
//! at D00 + 8 times 3 = D18, its frame is 001000: key 2, or 3 for the upper half.

use crate::expected::*;

/// A row: case, byte 0 of the swap word before and after, key byte before, key before and after.
type Row = (&'static str, (u8, u8), u8, (u8, u8));

/// Backup bits 4 (08) and 5 (04), key byte at D1A. Key bits 5 (04) and 6 (02) are reference and change, bit 7
/// stays as found.
const BIT_20_ZERO: [Row; 12] = [
    ("figure 13: bit 20 zero, old key C1, swap word 00000000", (0x00, 0x00), 0x00, (0xC1, 0x39)),
    ("figure 13: bit 20 zero, old key C4, swap word 00000000", (0x00, 0x08), 0x00, (0xC4, 0x38)),
    ("figure 13: bit 20 zero, old key C2, swap word 00000000", (0x00, 0x04), 0x00, (0xC2, 0x38)),
    ("figure 13: bit 20 zero, old key C7, swap word 00000000", (0x00, 0x0C), 0x00, (0xC7, 0x39)),
    ("figure 13: bit 20 zero, old key C1, swap word F3FFFFFF", (0xF3, 0xF3), 0xFF, (0xC1, 0x39)),
    ("figure 13: bit 20 zero, old key C4, swap word F3FFFFFF", (0xF3, 0xFB), 0xFF, (0xC4, 0x38)),
    ("figure 13: bit 20 zero, old key C2, swap word F3FFFFFF", (0xF3, 0xF7), 0xFF, (0xC2, 0x38)),
    ("figure 13: bit 20 zero, old key C7, swap word F3FFFFFF", (0xF3, 0xFF), 0xFF, (0xC7, 0x39)),
    ("figure 13: bit 20 zero, old key C1, swap word FFFFFFFF", (0xFF, 0xFF), 0xFF, (0xC1, 0x39)),
    ("figure 13: bit 20 zero, old key C4, swap word FFFFFFFF", (0xFF, 0xFF), 0xFF, (0xC4, 0x38)),
    ("figure 13: bit 20 zero, old key C2, swap word FFFFFFFF", (0xFF, 0xFF), 0xFF, (0xC2, 0x38)),
    ("figure 13: bit 20 zero, old key C7, swap word FFFFFFFF", (0xFF, 0xFF), 0xFF, (0xC7, 0x39)),
];

/// Backup bits 6 (02) and 7 (01), key byte at D1B.
const BIT_20_ONE: [Row; 12] = [
    ("figure 13: bit 20 one, old key C1, swap word 00000000", (0x00, 0x00), 0x00, (0xC1, 0x39)),
    ("figure 13: bit 20 one, old key C4, swap word 00000000", (0x00, 0x02), 0x00, (0xC4, 0x38)),
    ("figure 13: bit 20 one, old key C2, swap word 00000000", (0x00, 0x01), 0x00, (0xC2, 0x38)),
    ("figure 13: bit 20 one, old key C7, swap word 00000000", (0x00, 0x03), 0x00, (0xC7, 0x39)),
    ("figure 13: bit 20 one, old key C1, swap word FCFFFFFF", (0xFC, 0xFC), 0xFF, (0xC1, 0x39)),
    ("figure 13: bit 20 one, old key C4, swap word FCFFFFFF", (0xFC, 0xFE), 0xFF, (0xC4, 0x38)),
    ("figure 13: bit 20 one, old key C2, swap word FCFFFFFF", (0xFC, 0xFD), 0xFF, (0xC2, 0x38)),
    ("figure 13: bit 20 one, old key C7, swap word FCFFFFFF", (0xFC, 0xFF), 0xFF, (0xC7, 0x39)),
    ("figure 13: bit 20 one, old key C1, swap word FFFFFFFF", (0xFF, 0xFF), 0xFF, (0xC1, 0x39)),
    ("figure 13: bit 20 one, old key C4, swap word FFFFFFFF", (0xFF, 0xFF), 0xFF, (0xC4, 0x38)),
    ("figure 13: bit 20 one, old key C2, swap word FFFFFFFF", (0xFF, 0xFF), 0xFF, (0xC2, 0x38)),
    ("figure 13: bit 20 one, old key C7, swap word FFFFFFFF", (0xFF, 0xFF), 0xFF, (0xC7, 0x39)),
];

/// Keys 0 (MICBLOK: read, 04) and 1 (tables: read and stored, 06) are 96, 92, 94 or 90 at first, with the bits that the
/// page's own key has not.
fn recorded(old_key: u8) -> &'static [Change] {
    match old_key {
        0xC1 => &[],
        0xC4 => &[(0, 0x92, 0x96), (1, 0x92, 0x96)],
        0xC2 => &[(1, 0x94, 0x96)],
        _ => &[(0, 0x90, 0x94), (1, 0x90, 0x96)],
    }
}

fn figure_13_row(row: Row, key_byte_address: u32, key_number: u32) -> Expected {
    let (case, (byte_0, new_byte_0), key_byte, (key, new_key)) = row;
    let mut bytes = vec![(0xD18, byte_0, new_byte_0), (key_byte_address, key_byte, 0x3E)];
    bytes.retain(|change| change.1 != change.2);
    let keys = [recorded(key), &[(key_number, key, new_key)]].concat();
    expect(("SSK", case), COMPLETED, 8, &bytes, &keys, 0x1002)
}

pub fn figure_13() -> Vec<Expected> {
    let mut list: Vec<Expected> = BIT_20_ZERO.into_iter().map(|row| figure_13_row(row, 0xD1A, 2)).collect();
    list.extend(BIT_20_ONE.into_iter().map(|row| figure_13_row(row, 0xD1B, 3)));
    // Invalid page: five fields and the store, no key; only the key byte changes. All keys are 96.
    list.push(expect(
        ("SSK", "figure 13: bit 20 zero, invalid page, swap word F0E1D2C3"),
        COMPLETED,
        6,
        &[(0xD1A, 0xD2, 0x3E)],
        &[],
        0x1002,
    ));
    list.push(expect(
        ("SSK", "figure 13: bit 20 one, invalid page, swap word F0E1D2C3"),
        COMPLETED,
        6,
        &[(0xD1B, 0xC3, 0x3E)],
        &[],
        0x1002,
    ));
    list
}

/// Case and address of the swap word 90A1B2C3; key 2 is 06, so 90 OR 0C is 9C, and B2 becomes 3E. Blocks 0 and 1 are
/// read, and the swap word is stored in block 1, but for page FF: there it is at 14F8, in block 2 and so the page's
/// own, whose key is first set to 38, then stored in.
const LOWER_HALF: [(&str, u32); 15] = [
    ("figure 14: MICRSEG at 0", 0xD18),
    ("figure 14: SEGPAGE at 4SX, 64K, SX 00", 0xD18),
    ("figure 14: SEGPAGE at 4SX, 64K, SX 02", 0xD28),
    ("figure 14: SEGPAGE at 4SX, 64K, SX FF", 0xD18),
    ("figure 14: SEGPAGE at 4SX, 1M, SX 0, bit 31 one", 0xE18),
    ("figure 14: SEGPAGE at 4SX, 1M, SX 5, bit 31 one", 0xE18),
    ("figure 14: SEGPAGE at 4SX, 1M, SX F, bit 31 one", 0xE18),
    ("figure 14: PAGSWP at -4", 0xD20),
    ("figure 14: PAGCORE at 2PX, swap word at 8PX, 64K, PX 0", 0xD00),
    ("figure 14: PAGCORE at 2PX, swap word at 8PX, 64K, PX 1", 0xD08),
    ("figure 14: PAGCORE at 2PX, swap word at 8PX, 64K, PX F", 0xD78),
    ("figure 14: PAGCORE at 2PX, swap word at 8PX, 1M, PX 00, bit 31 one", 0xD00),
    ("figure 14: PAGCORE at 2PX, swap word at 8PX, 1M, PX 23, bit 31 one", 0xE18),
    ("figure 14: PAGCORE at 2PX, swap word at 8PX, 1M, PX FF, bit 31 one", 0x14F8),
    ("figure 14: SWPFLG at 0 and SWPKEY1 at 2", 0xD18),
];

pub fn figure_14() -> Vec<Expected> {
    let lower = |(case, swap_word): (&'static str, u32)| {
        let bytes = [(swap_word, 0x90, 0x9C), (swap_word + 2, 0xB2, 0x3E)];
        let (key_1, key_2) = if swap_word == 0x14F8 { (0x04, 0x3E) } else { (0x06, 0x38) };
        let keys = [(0, 0x00, 0x04), (1, 0x00, key_1), (2, 0x06, key_2)];
        expect(("SSK", case), COMPLETED, 8, &bytes, &keys, 0x1002)
    };
    let mut list: Vec<Expected> = LOWER_HALF.into_iter().map(lower).collect();
    // Key 3 is 02, change alone: 90 OR 01 is 91, and C3 becomes 3E.
    list.push(expect(
        ("SSK", "figure 14: SWPFLG at 0 and SWPKEY2 at 3"),
        COMPLETED,
        8,
        &[(0xD18, 0x90, 0x91), (0xD1B, 0xC3, 0x3E)],
        &[(0, 0x00, 0x04), (1, 0x00, 0x06), (3, 0x02, 0x38)],
        0x1002,
    ));
    list.push(expect(
        ("SSK", "figure 14: DAT on, all fields real"),
        COMPLETED,
        8,
        &[(0xD18, 0x00, 0x0C), (0xD1A, 0x00, 0x3E)],
        &[(0, 0x00, 0x04), (1, 0x00, 0x06), (2, 0x06, 0x38)],
        0x1002,
    ));
    list
}
