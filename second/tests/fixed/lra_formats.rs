//! LRA of 345E78 with each condition code in every format. The virtual segment table is at 123840, its entry at 123910
//! (64K: index 34) or 12384C (1M: index 3); the virtual page table at 056D08. By the real tables, in any format, the
//! first is in block 5, the second in block 3; they themselves are in block 1, MICBLOK and ECBLOK in block 0, the
//! halfword in block 2.

use crate::expected::*;

/// Virtual format; virtual address of its segment entry, of its page entry (index B, 8B, 5 and 45); the address that
/// the page entry (5678, 9AB0, ABC0, 1230) gives with byte index 678 or E78.
const VIRTUAL: [(&str, u32, u32, u32); 4] = [
    ("2K, 64K", 0x12_3910, 0x05_6D1E, 0x56_7E78),
    ("2K, 1M", 0x12_384C, 0x05_6E1E, 0x9A_B678),
    ("4K, 64K", 0x12_3910, 0x05_6D12, 0xAB_CE78),
    ("4K, 1M", 0x12_384C, 0x05_6D92, 0x12_3E78),
];

/// Four words, halfword 2, three entries for each walk.
pub fn lra_formats() -> Vec<Expected> {
    let mut list = Vec::new();
    for (format, segment_entry, page_entry, address) in VIRTUAL {
        for real in ["2K, 64K", "2K, 1M", "4K, 64K", "4K, 1M"] {
            let mut lra = |case: &str, count, blocks: &[u32], register, code| {
                let keys: Vec<Change> = blocks.iter().map(|&block| (block, 0x00, 0x04)).collect();
                let name = ("LRA", &*format!("format: {format}, real {real}, {case}").leak());
                let expected = expect(name, COMPLETED, count, &[], &keys, 0x1004);
                list.push(expected.register_and_code(3, register, code));
            };
            lra("code 0", 12, &[0, 1, 2, 3, 5], address, 0);
            lra("code 1", 9, &[0, 1, 2, 5], segment_entry, 1);
            lra("code 2", 12, &[0, 1, 2, 3, 5], page_entry, 2);
            lra("code 3 by page length", 9, &[0, 1, 2, 5], page_entry, 3);
            if format.ends_with("64K") {
                lra("code 3 by segment length", 6, &[0, 2], segment_entry, 3);
            }
        }
    }
    list
}
