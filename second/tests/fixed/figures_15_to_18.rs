//! SSM, STCTL, STNSM and STOSM. All keys are 00 at first: block 0 has the control fields, 2 the instruction, 4 the
//! operand; with DAT on 6 has the tables, A the instruction, C the operand. What is read gets 04, what is stored 06.

use crate::expected::*;

/// Of control fields alone.
const FIELDS_READ: [Change; 1] = [(0x0, 0x00, 0x04)];

/// SSM: MICCREG, register 0, halfword 2, operand byte 2, MICVPSW, virtual PSW: 8; the store: 9. With DAT on a
/// segment and a page entry more for halfword and operand: 13.
pub fn figure_15() -> Vec<Expected> {
    let completed = |case: &'static str, old: u8, new: u8| {
        let keys = [(0x0, 0x00, 0x06), (0x2, 0x00, 0x04), (0x4, 0x00, 0x04)];
        expect(("SSM", case), COMPLETED, 9, &[(0x600, old, new)], &keys, 0x1004)
    };
    vec![
        completed("figure 15: MICCREG at 4", 0x47, 0x45),
        completed("figure 15: EXTCR0 at 0, bit 1 zero among ones", 0x47, 0x45),
        // MICCREG and register 0.
        expect(
            ("SSM", "figure 15: EXTCR0 at 0, bit 1 one among zeros"),
            REFUSED,
            2,
            &[],
            &FIELDS_READ,
            0x1000,
        ),
        completed("figure 15: MICVPSW at 8", 0x47, 0x45),
        completed("figure 15: MICVPSW bit 0 zero among ones: not pending", 0x04, 0x07),
        expect(
            ("SSM", "figure 15: MICVPSW bit 0 one among zeros: pending"),
            EXPANDED,
            8,
            &[],
            &[(0x0, 0x00, 0x04), (0x2, 0x00, 0x04), (0x4, 0x00, 0x04)],
            0x1000,
        ),
        completed("figure 15: VMPSW of 2 bytes at 0, EC, neighbours BB", 0x4F, 0x45),
        completed("figure 15: VMPSW of 2 bytes at 0, BC, neighbours 4C", 0xFF, 0x00),
        completed("figure 15: operand of 1 byte", 0x47, 0x45),
        expect(
            ("SSM", "figure 15: DAT on, fields real, operand logical"),
            COMPLETED,
            13,
            &[(0x600, 0x47, 0x45)],
            &[(0x0, 0x00, 0x06), (0x6, 0x00, 0x04), (0xA, 0x00, 0x04), (0xC, 0x00, 0x04)],
            0x1004,
        ),
    ]
}

const REGISTERS: [(&str, u32); 16] = [
    ("figure 16: EXTCR0 at 0", 0xA0B0C0D0),
    ("figure 16: EXTCR1 at 4", 0xA1B1C1D1),
    ("figure 16: EXTCR2 at 8", 0xA2B2C2D2),
    ("figure 16: EXTCR3 at C", 0xA3B3C3D3),
    ("figure 16: EXTCR4 at 10", 0xA4B4C4D4),
    ("figure 16: EXTCR5 at 14", 0xA5B5C5D5),
    ("figure 16: EXTCR6 at 18", 0xA6B6C6D6),
    ("figure 16: EXTCR7 at 1C", 0xA7B7C7D7),
    ("figure 16: EXTCR8 at 20", 0xA8B8C8D8),
    ("figure 16: EXTCR9 at 24", 0xA9B9C9D9),
    ("figure 16: EXTCR10 at 28", 0xAABACADA),
    ("figure 16: EXTCR11 at 2C", 0xABBBCBDB),
    ("figure 16: EXTCR12 at 30", 0xACBCCCDC),
    ("figure 16: EXTCR13 at 34", 0xADBDCDDD),
    ("figure 16: EXTCR14 at 38", 0xAEBECEDE),
    ("figure 16: EXTCR15 at 3C", 0xAFBFCFDF),
];

/// The words of these registers from 2000 on.
fn stored(numbers: &[usize]) -> Vec<Change> {
    let list: Vec<(u32, u32)> =
        (0x2000..).step_by(4).zip(numbers.iter().map(|&number| REGISTERS[number].1)).collect();
    words(&list)
}

/// STCTL of n registers: MICCREG, halfword 2, n registers, n keys, n stores: 3 + 3n.
pub fn figure_16() -> Vec<Expected> {
    let keys = [(0x0, 0x00, 0x04), (0x2, 0x00, 0x04), (0x4, 0x00, 0x06)];
    let mut list =
        vec![expect(("STCTL", "figure 16: MICCREG at 4"), COMPLETED, 6, &stored(&[5]), &keys, 0x1004)];
    for (number, (case, _)) in REGISTERS.into_iter().enumerate() {
        list.push(expect(("STCTL", case), COMPLETED, 6, &stored(&[number]), &keys, 0x1004));
    }
    let from_0 = [0, 1, 2, 3, 4, 5, 6, 7, 8, 9, 10, 11, 12, 13, 14, 15];
    let from_1 = [1, 2, 3, 4, 5, 6, 7, 8, 9, 10, 11, 12, 13, 14, 15, 0];
    for (case, numbers, count) in [
        ("figure 16: operand of 4n bytes, R1=5, R3=5, n=1", &[5][..], 6),
        ("figure 16: operand of 4n bytes, R1=15, R3=0, n=2", &[15, 0], 9),
        ("figure 16: operand of 4n bytes, R1=14, R3=0, n=3", &[14, 15, 0], 12),
        ("figure 16: operand of 4n bytes, R1=0, R3=15, n=16", &from_0, 51),
        ("figure 16: operand of 4n bytes, R1=1, R3=0, n=16", &from_1, 51),
    ] {
        list.push(expect(("STCTL", case), COMPLETED, count, &stored(numbers), &keys, 0x1004));
    }
    // Segment and page entry for halfword and operand word: 4 more. The operand is in frame 006000.
    list.push(expect(
        ("STCTL", "figure 16: DAT on, fields real, operand logical"),
        COMPLETED,
        10,
        &words(&[(0x6000, 0xA5B5C5D5)]),
        &[(0x0, 0x00, 0x04), (0x6, 0x00, 0x04), (0xA, 0x00, 0x04), (0xC, 0x00, 0x06)],
        0x1004,
    ));
    list
}

/// MICVPSW, virtual PSW, halfword 2, key of the operand, two stores: 7; with DAT on 11.
fn completed(
    name: (&'static str, &'static str),
    count: usize,
    (old, new): (u8, u8),
    operand: u32,
) -> Expected {
    let keys = if operand == 0x6000 {
        vec![(0x0, 0x00, 0x06), (0x6, 0x00, 0x04), (0xA, 0x00, 0x04), (0xC, 0x00, 0x06)]
    } else {
        vec![(0x0, 0x00, 0x06), (0x2, 0x00, 0x04), (0x4, 0x00, 0x06)]
    };
    expect(name, COMPLETED, count, &[(0x600, old, new), (operand, 0x00, old)], &keys, 0x1004)
}

pub fn figure_17() -> Vec<Expected> {
    let dat_17 = "figure 17: DAT on, fields real, operand logical";
    vec![
        // 47 AND FC is 44.
        completed(("STNSM", "figure 17: MICVPSW at 8"), 7, (0x47, 0x44), 0x2000),
        // Bits 1 and 5 go to zero.
        expect(
            ("STNSM", "figure 17: VMPSW of 2 bytes at 0, EC, neighbours 00"),
            EXPANDED,
            2,
            &[],
            &FIELDS_READ,
            0x1000,
        ),
        completed(("STNSM", "figure 17: VMPSW of 2 bytes at 0, BC, neighbours 4C"), 7, (0x47, 0x00), 0x2000),
        completed(("STNSM", "figure 17: operand of 1 byte"), 7, (0x47, 0x44), 0x2000),
        completed(("STNSM", dat_17), 11, (0x47, 0x44), 0x6000),
    ]
}

pub fn figure_18() -> Vec<Expected> {
    let dat_18 = "figure 18: DAT on, fields real, operand logical";
    vec![
        // 04 OR 03 is 07.
        completed(("STOSM", "figure 18: MICVPSW at 8"), 7, (0x04, 0x07), 0x2000),
        completed(
            ("STOSM", "figure 18: MICVPSW bit 0 zero among ones: not pending"),
            7,
            (0x04, 0x07),
            0x2000,
        ),
        expect(
            ("STOSM", "figure 18: MICVPSW bit 0 one among zeros: pending"),
            EXPANDED,
            2,
            &[],
            &FIELDS_READ,
            0x1000,
        ),
        // OR 40: bit 1 goes to one.
        expect(
            ("STOSM", "figure 18: VMPSW of 2 bytes at 0, EC, neighbours 00"),
            EXPANDED,
            2,
            &[],
            &FIELDS_READ,
            0x1000,
        ),
        completed(("STOSM", "figure 18: VMPSW of 2 bytes at 0, BC, neighbours 4C"), 7, (0x04, 0x87), 0x2000),
        completed(("STOSM", "figure 18: operand of 1 byte"), 7, (0x04, 0x07), 0x2000),
        completed(("STOSM", dat_18), 11, (0x04, 0x07), 0x6000),
    ]
}
