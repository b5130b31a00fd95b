//! Figure 9: fields of LRA 3,010(0,2). Every case gives condition code 0 and, by the virtual page entry ABC0 (4K pages)
//! or 5678 (2K), the address ABCE78 or 567E78; wrong turns would give DEC. Counts: four words, halfword 2, three
//! entries for each walk: 12.
//!
//! All keys are 00 at first. Block 0 has MICBLOK and ECBLOK, 1 the real segment table, 2 the halfword, 3 the real page
//! tables, 4 (from 2000 on) the virtual segment entry, 6 (from 3000 on) the virtual page entry.

use crate::expected::*;

const REAL_CASES: [&str; 12] = [
    "SEGPAGE at 4SX, 64K, SX 00",
    "SEGPAGE at 4SX, 64K, SX FF",
    "SEGPAGE at 4SX, 1M, SX 0",
    "SEGPAGE at 4SX, 1M, SX F",
    "PAGCORE at 2PX, 4K, 64K, PX 0",
    "PAGCORE at 2PX, 4K, 64K, PX F",
    "PAGCORE at 2PX, 2K, 64K, PX 00",
    "PAGCORE at 2PX, 2K, 64K, PX 1F",
    "PAGCORE at 2PX, 4K, 1M, PX 00",
    "PAGCORE at 2PX, 4K, 1M, PX FF",
    "PAGCORE at 2PX, 2K, 1M, PX 000",
    "PAGCORE at 2PX, 2K, 1M, PX 1FF",
];

const VIRTUAL_CASES: [(&str, u32); 12] = [
    ("virtual segment entry, 64K, index 00", 0x00AB_CE78),
    ("virtual segment entry, 64K, index FF", 0x00AB_CE78),
    ("virtual segment entry, 1M, index 0", 0x00AB_CE78),
    ("virtual segment entry, 1M, index F", 0x00AB_CE78),
    ("virtual page entry, 4K, 64K, index 0", 0x00AB_CE78),
    ("virtual page entry, 4K, 64K, index F", 0x00AB_CE78),
    ("virtual page entry, 2K, 64K, index 00", 0x0056_7E78),
    ("virtual page entry, 2K, 64K, index 1F", 0x0056_7E78),
    ("virtual page entry, 4K, 1M, index 00", 0x00AB_CE78),
    ("virtual page entry, 4K, 1M, index FF", 0x00AB_CE78),
    ("virtual page entry, 2K, 1M, index 000", 0x0056_7E78),
    ("virtual page entry, 2K, 1M, index 1FF", 0x0056_7E78),
];

pub fn figure_9() -> Vec<Expected> {
    let lra = |case: &str, count, blocks: &[u32], address| {
        let keys: Vec<Change> = blocks.iter().map(|&block| (block, 0x00, 0x04)).collect();
        let name = ("LRA", &*format!("figure 9: {case}").leak());
        expect(name, COMPLETED, count, &[], &keys, 0x1004).register_and_code(3, address, 0)
    };
    let blocks = [0, 1, 2, 3, 4, 6];
    let mut list =
        vec![lra("MICRSEG at 0, MICCREG at 4, EXTCR0 at 0, EXTCR1 at 4", 12, &blocks, 0x00AB_CE78)];
    for walk in ["first walk", "second walk"] {
        list.extend(REAL_CASES.map(|case| lra(&format!("{walk}, {case}"), 12, &blocks, 0x00AB_CE78)));
    }
    list.extend(VIRTUAL_CASES.map(|(case, address)| lra(case, 12, &blocks, address)));
    // Segment and page entry of the second halfword in block 6, the halfword in block A.
    let dat = "DAT on, fields real, instruction logical";
    list.push(lra(dat, 14, &[0, 1, 3, 4, 6, 0xA], 0x00AB_CE78));
    list
}
