//! Edges of LRA (document 02, R-9; steps of document 002): codes by format, entry addresses round the top, registers.
//! MICBLOK and ECBLOK are in block 0, the real tables in block 1, the second halfword (1002) in block 2, the virtual
//! page table in block 3, the virtual segment table in block 5; all that is read gets 04, nothing is stored. All keys
//! are 00 at first; register 3 is ABCDEF3F and the condition code 1, or 2.

use crate::expected::*;

/// MICRSEG, MICCREG, two virtual control registers, halfword 2: six entries. Each walk with its virtual entry: three.
pub const HALFWORD: usize = 6;
pub const SEGMENT: usize = 9;
pub const PAGE: usize = 12;

/// Blocks read up to the second halfword, up to the virtual segment entry, and up to the virtual page entry.
pub const UP_TO_HALFWORD: &[u32] = &[0, 2];
pub const UP_TO_SEGMENT: &[u32] = &[0, 1, 2, 5];
pub const UP_TO_PAGE: &[u32] = &[0, 1, 2, 3, 5];

/// 345E78 in frame ABC.
pub const LOADED: u32 = 0x00AB_CE78;

pub fn read(blocks: &[u32]) -> Vec<Change> {
    blocks.iter().map(|&block| (block, 0x00, 0x04)).collect()
}

pub fn completed(case: &'static str, count: usize, blocks: &[u32], register_3: u32, code: u32) -> Expected {
    let expected = expect(("LRA", case), COMPLETED, count, &[], &read(blocks), 0x1004);
    expected.register_and_code(3, register_3, code)
}

pub fn ended(case: &'static str, ending: (u32, u32, u32), count: usize, blocks: &[u32]) -> Expected {
    expect(("LRA", case), ending, count, &[], &read(blocks), 0x1000)
}

pub fn load_real_address() -> Vec<Expected> {
    let mut list = codes("4K");
    list.extend(codes("2K"));
    list.extend(real_1m());
    list.extend(round_the_top());
    list.extend(index());
    list.extend(result_register());
    list
}

/// Virtual format; addresses of segment entry and page entry; what code 0 loads; the page table's length where it is
/// too short.
const FORMATS: [(&str, u32, u32, u32, u32); 4] = [
    // 123840 + 4 * 34; 056D08 + 2 * 0B; page entry 5678 gives 567800, byte index 678.
    ("virtual pages 2K, segments 64K", 0x12_3910, 0x05_6D1E, 0x56_7E78, 4),
    // 123840 + 4 * 3; 056D08 + 2 * 8B; 9AB000.
    ("virtual pages 2K, segments 1M", 0x12_384C, 0x05_6E1E, 0x9A_B678, 3),
    // 056D08 + 2 * 5; ABC000, byte index E78.
    ("virtual pages 4K, segments 64K", 0x12_3910, 0x05_6D12, 0xAB_CE78, 4),
    // 056D08 + 2 * 45; 123000.
    ("virtual pages 4K, segments 1M", 0x12_384C, 0x05_6D92, 0x12_3E78, 3),
];

/// Five for each format. The segment table's length 02 is below address bits 8-11, 3, but for 1M that is not tested.
fn codes(real_pages: &str) -> Vec<Expected> {
    let mut list = Vec::new();
    for (format, segment_entry, page_entry, loaded, length) in FORMATS {
        let case =
            |words: &str| -> &'static str { format!("{format}, real pages {real_pages}{words}").leak() };
        list.push(completed(case(""), PAGE, UP_TO_PAGE, loaded, 0));
        list.push(completed(case(", segment entry invalid"), SEGMENT, UP_TO_SEGMENT, segment_entry, 1));
        list.push(completed(case(", page entry invalid"), PAGE, UP_TO_PAGE, page_entry, 2));
        let segment_length = case(", segment-table length 02");
        list.push(if format.ends_with("1M") {
            completed(segment_length, PAGE, UP_TO_PAGE, loaded, 0)
        } else {
            completed(segment_length, HALFWORD, UP_TO_HALFWORD, segment_entry, 3)
        });
        let page_length = case(&format!(", page-table length {length}"));
        list.push(completed(page_length, SEGMENT, UP_TO_SEGMENT, page_entry, 3));
    }
    list
}

fn real_1m() -> Vec<Expected> {
    vec![
        completed("real pages 4K, segments 1M, MICRSEG length 00", PAGE, UP_TO_PAGE, LOADED, 0),
        completed("real pages 2K, segments 1M, MICRSEG length 00", PAGE, UP_TO_PAGE, LOADED, 0),
    ]
}

/// Virtual entries at 000090 and 000002, which are at 2090 and 2002 in block 4. Real entries at 000008 and 00000C, and
/// at 000006 and 000012, in block 0.
fn round_the_top() -> Vec<Expected> {
    let both = "virtual segment table at FFFFC0, virtual page table at FFFFF8";
    let page_length = "virtual page table at FFFFF8, page-table length 4";
    vec![
        completed(both, PAGE, &[0, 1, 2, 4], LOADED, 0),
        completed(
            "virtual segment table at FFFFC0, segment entry invalid",
            SEGMENT,
            &[0, 1, 2, 4],
            0x0000_0090,
            1,
        ),
        completed("virtual segment table at FFFFC0, length 02", HALFWORD, UP_TO_HALFWORD, 0x0000_0090, 3),
        completed("virtual page table at FFFFF8, page entry invalid", PAGE, &[0, 1, 2, 4, 5], 0x0000_0002, 2),
        completed(page_length, SEGMENT, UP_TO_SEGMENT, 0x0000_0002, 3),
        completed("real segment table at FFFFC0", PAGE, UP_TO_PAGE, LOADED, 0),
        completed("real pages 2K, real page tables at FFFFF8", PAGE, UP_TO_PAGE, LOADED, 0),
    ]
}

/// Each sum is 345E78, the last 000FFD, whose page 0 has frame ABC too.
fn index() -> Vec<Expected> {
    vec![
        completed("index register 5", PAGE, UP_TO_PAGE, LOADED, 0),
        completed("index 0, register 0 5A111111", PAGE, UP_TO_PAGE, LOADED, 0),
        completed("base 0, index register 5, register 0 5A111111", PAGE, UP_TO_PAGE, LOADED, 0),
        completed("index and base register 2", PAGE, UP_TO_PAGE, LOADED, 0),
        completed("base FFFFFFFF, index FFFFFFFF, displacement FFF", PAGE, UP_TO_PAGE, 0x00AB_CFFD, 0),
    ]
}

fn result_register() -> Vec<Expected> {
    let result = |case, number| {
        let expected = expect(("LRA", case), COMPLETED, PAGE, &[], &read(UP_TO_PAGE), 0x1004);
        expected.register_and_code(number, LOADED, 0)
    };
    vec![
        result("R1 and index register 5", 5),
        result("R1 and base register 2", 2),
        result("R1, index and base register 15", 15),
        result("R1 register 0, index 0", 0),
    ]
}

/// 16 MiB. Block 1FFF has virtual control register 0 and half of register 1, whose other half is in block 0; the
/// instruction, whose second halfword is in block 0; and both virtual entries, of which the second has frame FFF.
pub fn large_load_real_address() -> Vec<Expected> {
    let instruction =
        expect(("LRA", "instruction at FFFFFE"), COMPLETED, PAGE, &[], &read(&[0, 1, 3, 5]), 0x00_0002);
    vec![
        completed("virtual control register 1 at FFFFFE", PAGE, &[0, 1, 2, 3, 5, 0x1FFF], LOADED, 0),
        instruction.register_and_code(3, LOADED, 0),
        completed("virtual entries at FFF910 and FFFD12", PAGE, &[0, 1, 2, 0x1FFF], 0x00FF_FE78, 0),
    ]
}
