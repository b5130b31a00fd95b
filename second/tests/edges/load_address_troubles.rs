//! Edges of LRA: what is not in storage, refusals, the second halfword, recording. Blocks and counts as in
//! `load_address`.

use crate::expected::*;
use crate::load_address::*;

pub fn load_real_address_troubles() -> Vec<Expected> {
    let mut list = places();
    list.extend(walks());
    list.extend(virtual_entries());
    list.extend(virtual_control_register_0());
    list.extend(second_halfword());
    list.extend(control_register_6());
    list.extend(recording());
    list.push(expect(("other", "first halfword B030"), (13, 0, 0), 0, &[], &[], 0x1000));
    list
}

/// Entries are those before. A virtual entry has no place of its own: refused.
fn places() -> Vec<Expected> {
    let second = "real segment entry of the first walk at 3FC8, of the second at 4000";
    vec![
        ended("MICBLOK at 4000", (3, 1, 0), 0, &[]),
        completed("MICBLOK at 3FF8, MICCREG at 3FFC", PAGE, &[0, 1, 2, 3, 5, 7], LOADED, 0),
        ended("ECBLOK at 4000", (3, 3, 0), 2, &[0]),
        // Virtual control register 0 is in block 7.
        ended("ECBLOK at 3FFC", (3, 4, 0), 3, &[0, 7]),
        ended("real segment table at 4000", (3, 5, 0), 6, UP_TO_HALFWORD),
        ended("real page table of the first walk at 4000", (3, 6, 0), 7, &[0, 1, 2]),
        ended(second, (3, 7, 0), 9, &[0, 1, 2, 5, 7]),
        ended("real page table of the second walk at 4000", (3, 8, 0), 10, UP_TO_SEGMENT),
        ended("virtual segment entry at 4910", REFUSED, 8, &[0, 1, 2]),
        ended("virtual page entry at 4D12", REFUSED, 11, UP_TO_SEGMENT),
    ]
}

/// Refused by the length before the real segment entry, by that entry after it, by the real page entry after that.
fn walks() -> Vec<Expected> {
    let moved = "second walk, virtual page table at 256D08, MICRSEG length 01";
    let first = |case, count| ended(case, REFUSED, count, &[0, 1, 2]);
    let second = |case, count| ended(case, REFUSED, count, UP_TO_SEGMENT);
    vec![
        ended("first walk, MICRSEG length 00", REFUSED, 6, UP_TO_HALFWORD),
        first("first walk, real segment entry invalid", 7),
        first("first walk, real segment entry bits 4-7 0001", 7),
        first("first walk, real page-table length 2", 7),
        first("first walk, real page entry invalid", 8),
        first("first walk, real page entry bit 13 one", 8),
        second(moved, 9),
        second("second walk, real segment entry invalid", 10),
        second("second walk, real segment entry bits 4-7 1000", 10),
        second("second walk, real page-table length 5", 10),
        second("second walk, real page entry invalid", 11),
        second("second walk, real page entry bit 14 one", 11),
        first("real pages 2K, first walk, real page entry bit 13 one", 8),
        second("real pages 2K, second walk, real page entry bit 14 one", 11),
    ]
}

/// Steps 13, 14 and 15, and steps 22 and 23, in this order.
fn virtual_entries() -> Vec<Expected> {
    let segment = |case| ended(case, REFUSED, SEGMENT, UP_TO_SEGMENT);
    let page = |case| ended(case, REFUSED, PAGE, UP_TO_PAGE);
    vec![
        segment("virtual segment entry bits 4-7 0001"),
        completed("virtual segment entry invalid, bits 4-7 1000", SEGMENT, UP_TO_SEGMENT, 0x0012_3910, 1),
        segment("virtual segment entry bits 4-7 1000, page-table length 4"),
        page("virtual page entry bit 13 one"),
        completed("virtual page entry invalid, bits 13-14 11", PAGE, UP_TO_PAGE, 0x0005_6D12, 2),
        page("virtual pages 2K, page entry bit 14 one"),
    ]
}

/// Step 4: four entries, none of the second halfword, which is at 4000 in one of them.
fn virtual_control_register_0() -> Vec<Expected> {
    let outside = "virtual control register 0 bits 8-12 00000, second halfword not in storage";
    vec![
        ended("virtual control register 0 bits 8-12 00000", REFUSED, 4, &[0]),
        // Bits 8-12 are 10000.
        completed("virtual control register 0 FF87FFFF", PAGE, UP_TO_PAGE, LOADED, 0),
        expect(("LRA", outside), REFUSED, 4, &[], &read(&[0]), 0x3FFE),
        // Step 3 comes before.
        ended("virtual control register 0 bits 8-12 00000, ECBLOK at 3FFC", (3, 4, 0), 3, &[0, 7]),
    ]
}

/// Step 5: after the four fields, before the walk. DAT's tables are in block 6.
fn second_halfword() -> Vec<Expected> {
    let outside = |case| expect(("LRA", case), ADDRESSING, 4, &[], &read(&[0]), 0x3FFE);
    let dat_on = "DAT on, pages 2K, segments 1M, instruction's page at 1000";
    vec![
        outside("second halfword not in storage"),
        outside("second halfword not in storage, real segment table at 4000"),
        // Its key, 28, is consulted.
        ended("second halfword fetch-protected", PROTECTION, 5, &[0]),
        ended("DAT on, control register 0 bits 8-12 00000", (1, 18, 0), 4, &[0]),
        ended("DAT on, second halfword's segment invalid", (1, 16, 0x1002), 5, &[0, 6]),
        ended("DAT on, second halfword's page invalid", (1, 17, 0x1002), 6, &[0, 6]),
        // Segment and page entry of the halfword more.
        completed(dat_on, PAGE + 2, &[0, 1, 2, 3, 5, 6], LOADED, 0),
    ]
}

/// 10X0.
fn control_register_6() -> Vec<Expected> {
    vec![
        completed("control register 6 bits 0-3 1010", PAGE, UP_TO_PAGE, LOADED, 0),
        ended("control register 6 bits 0-3 1001", REFUSED, 0, &[]),
        ended("control register 6 bits 0-3 1100", REFUSED, 0, &[]),
    ]
}

/// F3 has access bits F, the change bit and bit 7: F7 with the reference bit. FB is fetch-protected too. Key 2, 18, has
/// access bits 1.
fn recording() -> Vec<Expected> {
    let f3 = |blocks: &[u32]| blocks.iter().map(|&block| (block, 0xF3, 0xF7)).collect::<Vec<_>>();
    let all = expect(("LRA", "all keys F3"), COMPLETED, PAGE, &[], &f3(UP_TO_PAGE), 0x1004);
    let protected = expect(
        ("LRA", "PSW key 1, all keys FB but key 2, which is 18"),
        COMPLETED,
        PAGE,
        &[],
        &[(0, 0xFB, 0xFF), (1, 0xFB, 0xFF), (2, 0x18, 0x1C), (3, 0xFB, 0xFF), (5, 0xFB, 0xFF)],
        0x1004,
    );
    let across = "virtual control register 1 across a block boundary";
    let refused = "all keys F3, real page entry of the second walk invalid";
    vec![
        all.register_and_code(3, LOADED, 0),
        protected.register_and_code(3, LOADED, 0),
        // 37FE to 3801: blocks 6 and 7.
        completed(across, PAGE, &[0, 1, 2, 3, 5, 6, 7], LOADED, 0),
        expect(("LRA", refused), REFUSED, 11, &[], &f3(UP_TO_SEGMENT), 0x1000),
    ]
}
