//! Figure 10, bit by bit. RRB of page 3 in frame 002: keys 4 and 5; the swap word is at D18. Counts: MICRSEG,
//! halfword 2, four fields, two keys, store: 10; of an invalid page 8.

use crate::expected::*;

/// Bits of the swap word: backup reference, backup change, virtual reference, virtual change.
const BITS: [(&str, [u32; 4]); 2] = [("zero", [4, 5, 21, 22]), ("one", [6, 7, 29, 30])];

/// Every other key than the page's has the bits that it has not. Block 0 (MICRSEG) and 2 (second halfword) are read,
/// block 1 is read and stored in.
fn keys(number: u32, old: u8, new: u8) -> Vec<Change> {
    let mut changes = vec![(0, !old, !old | 0x04), (1, !old, !old | 0x06), (2, !old, !old | 0x04)];
    changes.push((number, old, new));
    changes.sort_unstable();
    changes.retain(|change| change.1 != change.2);
    changes
}

fn bytes(old: u32, new: u32) -> Vec<Change> {
    let (old, new) = (old.to_be_bytes(), new.to_be_bytes());
    (0..4).map(|byte| (0xD18 + byte as u32, old[byte], new[byte])).filter(|one| one.1 != one.2).collect()
}

/// What stands where before and after, and the condition code.
struct Row {
    swap_word: (u32, u32),
    key: (u8, u8),
    code: u32,
}

fn expected(case: String, count: usize, key_number: u32, row: &Row) -> Expected {
    let Row { swap_word, key, code } = *row;
    let name = ("RRB", &*case.leak());
    let keys = keys(key_number, key.0, key.1);
    expect(name, COMPLETED, count, &bytes(swap_word.0, swap_word.1), &keys, 0x1004).condition_code(code)
}

fn bit(position: u32) -> u32 {
    0x8000_0000 >> position
}

/// One bit of the swap word alone, key 00: only the virtual reference bit goes, and only the virtual bits count.
fn alone(position: u32, [_, _, reference, change]: [u32; 4]) -> Row {
    let word = bit(position);
    let (after, code) = if position == reference { (0, 2) } else { (word, u32::from(position == change)) };
    Row { swap_word: (word, after), key: (0x00, 0x00), code }
}

/// One bit zero among ones, key 06: the backup bits become ones, the virtual reference bit zero; the key loses 04.
fn zero_among_ones(position: u32, [backup_r, backup_c, reference, _]: [u32; 4]) -> Row {
    let word = !bit(position);
    Row {
        swap_word: (word, (word | bit(backup_r) | bit(backup_c)) & !bit(reference)),
        key: (0x06, 0x02),
        code: 3,
    }
}

/// One bit of the key alone, swap word zeros; then one bit zero among ones, swap word ones.
fn key_rows(position: usize, [backup_r, backup_c, reference, _]: [u32; 4]) -> [Row; 2] {
    let key: u8 = [0x80, 0x40, 0x20, 0x10, 0x08, 0x04, 0x02, 0x01][position];
    let ones = (0xFFFF_FFFF, !bit(reference));
    let (after, code) = match position {
        5 => (bit(backup_r), 2),
        6 => (bit(backup_c), 1),
        _ => (0, 0),
    };
    [
        Row { swap_word: (0, after), key: (key, key & 0xFB), code },
        Row { swap_word: ones, key: (!key, !key & 0xFB), code: 3 },
    ]
}

pub fn figure_10() -> Vec<Expected> {
    let mut list = Vec::new();
    for (key_number, (bit_20, positions)) in [4, 5].into_iter().zip(BITS) {
        let prefix = format!("figure 10: bit 20 {bit_20}");
        let virtual_key = if bit_20 == "zero" { 16..24 } else { 24..32 };
        for position in (0..8).chain(virtual_key) {
            let swap_word = format!("{prefix}, swap word bit {position}");
            let (one, zero) = (alone(position, positions), zero_among_ones(position, positions));
            list.push(expected(format!("{swap_word} alone"), 10, key_number, &one));
            list.push(expected(format!("{swap_word} zero among ones, key 06"), 10, key_number, &zero));
        }
        for position in 0..8 {
            let key = format!("{prefix}, key bit {position}");
            let [one, zero] = key_rows(position, positions);
            list.push(expected(format!("{key} alone"), 10, key_number, &one));
            list.push(expected(format!("{key} zero among ones, swap word ones"), 10, key_number, &zero));
        }
        // The key, FF, is not touched.
        for (swap_word, code) in [((0, 0), 0), ((0xFFFF_FFFF, !bit(positions[2])), 3)] {
            let case = format!("{prefix}, page invalid, swap word {:08X}, key FF", swap_word.0);
            list.push(expected(case, 8, key_number, &Row { swap_word, key: (0xFF, 0xFF), code }));
        }
    }
    list
}
