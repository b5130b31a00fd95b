//! LRA's address by base and index, and entries that go round. Blocks: 0 MICBLOK and ECBLOK, 1 real tables, 2 halfword,
//! 3 virtual page table, 5 virtual segment table, 4 where an entry that goes round is in frame 002.

use crate::expected::*;

/// Condition code, register and its contents.
fn lra(case: &str, count: usize, blocks: &[u32], loaded: (u32, usize, u32)) -> Expected {
    let keys: Vec<Change> = blocks.iter().map(|&block| (block, 0x00, 0x04)).collect();
    let (code, register, contents) = loaded;
    let expected = expect(("LRA", case.to_string().leak()), COMPLETED, count, &[], &keys, 0x1004);
    expected.register_and_code(register, contents, code)
}

/// Case and R1; the address is 345E78, and ABCE78 is loaded.
const OPERANDS: [(&str, usize); 13] = [
    ("base 2, index 0", 3),
    ("base 0, index 2", 3),
    // 300E00 + 045068 + 010.
    ("base 2, index 4", 3),
    ("base 4, index 2", 3),
    // 1A2F34 + 1A2F34 + 010; 9A2F34 + 9A2F34 goes round.
    ("base 2, index 2", 3),
    ("base 2, index 2, bit 8 one", 3),
    // FFFFF8 + 345E70 + 010.
    ("base 2, index 4, the sum goes round", 3),
    // 344E45 + 000034 + FFF.
    ("base 15, index 14, displacement FFF", 3),
    ("R1 is base 2", 2),
    ("R1 is index 4", 4),
    ("R1 is base 2 and index 2", 2),
    ("R1 is 0, base 0, index 2", 0),
    ("R1 is 15", 15),
];

pub fn lra_addresses() -> Vec<Expected> {
    let all = [0, 1, 2, 3, 5];
    let operand = |(case, register): (&str, usize)| {
        lra(&format!("operand: {case}"), 12, &all, (0, register, 0x00AB_CE78))
    };
    let mut list: Vec<Expected> = OPERANDS.into_iter().map(operand).collect();
    // Segment 0, page 0, byte index 678.
    list.insert(2, lra("operand: base 0, index 0, address 678", 12, &all, (0, 3, 0x00AB_C678)));
    // FFFF80 + D0; FFFFF8 + 00A.
    let (segment_entry, page_entry) = ("round: virtual segment entry", "round: virtual page entry");
    list.extend([
        lra(segment_entry, 12, &[0, 1, 2, 3, 4], (0, 3, 0x00AB_CE78)),
        lra(&format!("{segment_entry}, code 1"), 9, &[0, 1, 2, 4], (1, 3, 0x0000_0050)),
        lra(&format!("{segment_entry}, code 3"), 6, &[0, 2], (3, 3, 0x0000_0050)),
        lra(page_entry, 12, &[0, 1, 2, 4, 5], (0, 3, 0x00AB_CE78)),
        lra(&format!("{page_entry}, code 2"), 12, &[0, 1, 2, 4, 5], (2, 3, 0x0000_0002)),
        lra(&format!("{page_entry}, code 3"), 9, &[0, 1, 2, 5], (3, 3, 0x0000_0002)),
        lra("round: real segment entries", 12, &all, (0, 3, 0x00AB_CE78)),
    ]);
    // Four words, halfword 2, three of the first walk; FFFFC0 + 014 is FFFFD4. Segment entry 000008 is in block 0.
    let outside = ("LRA", "round: real segment entry of the first walk, the second outside");
    let keys = [0, 1, 2, 5].map(|block| (block, 0x00, 0x04));
    list.push(expect(outside, (3, 7, 0), 9, &[], &keys, 0x1000));
    list.push(lra("round: real page entries", 12, &all, (0, 3, 0x00AB_CE78)));
    list
}
