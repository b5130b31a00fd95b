//! The list of edges in document 01, those marked expanded with control register 6 bit 6 both ways (document 02, R-3):
//! handed over if the assist is installed and the bit is one, else interruption 2.
//!
//! Keys, which are 00 at first but where it says otherwise: block 0 has MICBLOK, ECBLOK and virtual PSW, block 1 the
//! tables of SSK, block 2 the instruction, block 4 the operand; what is read gets 04, what is stored 06.

use crate::expected::*;

/// All that STCTL reads, and the same with its operand.
const STCTL_READ: [Change; 2] = [(0, 0x00, 0x04), (2, 0x00, 0x04)];
const STCTL_STORED: [Change; 3] = [(0, 0x00, 0x04), (2, 0x00, 0x04), (4, 0x00, 0x06)];

/// All that SSM reads, and the same with the virtual PSW stored.
const SSM_READ: [Change; 3] = [(0, 0x00, 0x04), (2, 0x00, 0x04), (4, 0x00, 0x04)];
const SSM_STORED: [Change; 3] = [(0, 0x00, 0x06), (2, 0x00, 0x04), (4, 0x00, 0x04)];

/// What STNSM and STOSM read up to step 4, and all with operand and virtual PSW stored.
const STORE_THEN_READ: [Change; 1] = [(0, 0x00, 0x04)];
const STORE_THEN_STORED: [Change; 3] = [(0, 0x00, 0x06), (2, 0x00, 0x04), (4, 0x00, 0x06)];

/// Registers 1 to 15, then 0.
fn sixteen_words() -> Vec<Change> {
    words(&[
        (0x2000, 0xA1B1C1D1),
        (0x2004, 0xA2B2C2D2),
        (0x2008, 0xA3B3C3D3),
        (0x200C, 0xA4B4C4D4),
        (0x2010, 0xA5B5C5D5),
        (0x2014, 0xA6B6C6D6),
        (0x2018, 0xA7B7C7D7),
        (0x201C, 0xA8B8C8D8),
        (0x2020, 0xA9B9C9D9),
        (0x2024, 0xAABACADA),
        (0x2028, 0xABBBCBDB),
        (0x202C, 0xACBCCCDC),
        (0x2030, 0xADBDCDDD),
        (0x2034, 0xAEBECEDE),
        (0x2038, 0xAFBFCFDF),
        (0x203C, 0xA0B0C0D0),
    ])
}

/// STCTL counts: MICCREG 1, second halfword 2 (key, fetch), registers, keys of the words tested, stores.
pub fn store_control() -> Vec<Expected> {
    let four =
        words(&[(0x2000, 0xAEBECEDE), (0x2004, 0xAFBFCFDF), (0x2008, 0xA0B0C0D0), (0x200C, 0xA1B1C1D1)]);
    vec![
        // 1 + 2 + 4 + 4 + 4
        expect(("STCTL", "R1=14, R3=1: registers 14, 15, 0, 1"), COMPLETED, 15, &four, &STCTL_STORED, 0x1004),
        // 1 + 2 + 1 + 1 + 1
        expect(
            ("STCTL", "R1=R3=5: one register"),
            COMPLETED,
            6,
            &words(&[(0x2000, 0xA5B5C5D5)]),
            &STCTL_STORED,
            0x1004,
        ),
        // 1 + 2 + 16 + 16 + 16
        expect(
            ("STCTL", "R1=1, R3=0: sixteen registers"),
            COMPLETED,
            51,
            &sixteen_words(),
            &STCTL_STORED,
            0x1004,
        ),
        // 1 + 2 + 2 + key of the first word; the second makes no entry.
        expect(
            ("STCTL", "operand 3FFFFC, two registers, 4 MiB: second word not in storage"),
            ADDRESSING,
            6,
            &[],
            &STCTL_READ,
            0x1000,
        ),
    ]
}

/// In 16 MiB, or one block more.
pub fn large_store_control() -> Vec<Expected> {
    let round = words(&[(0x000000, 0xA7B7C7D7), (0xFFFFFC, 0xA6B6C6D6)]);
    let protected = "operand FFFFF8, three registers, 16 MiB: third word at 000000 protected, nothing stored";
    vec![
        // 1 + 2 + 2 + 2 + 2
        expect(
            ("STCTL", "operand FFFFFC, two registers, 16 MiB, key zero: goes round to 000000"),
            COMPLETED,
            9,
            &round,
            &[(0x0, 0x00, 0x06), (0x2, 0x00, 0x04), (0x1FFF, 0x00, 0x06)],
            0x1004,
        ),
        expect(("STCTL", "storage one block over 16 MiB"), (10, 0, 0), 0, &[], &[], 0x1000),
        // 1 + 2 + 3 registers + 3 keys; the third protects. Key 0 is 20 and key 1FFF is 10 at first: both blocks are
        // tested, block 0 is read too.
        expect(("STCTL", protected), PROTECTION, 9, &[], &[(0x0, 0x20, 0x24), (0x2, 0x00, 0x04)], 0x1000),
        // 1 + 2 + 1 + 1 + 1. Register 15 is read from FFFFFE to 000001, MICCREG (1404) and the second halfword (1002)
        // in block 2.
        expect(
            ("STCTL", "register 15 round the top: both blocks"),
            COMPLETED,
            6,
            &words(&[(0x2000, 0xAFBFCFDF)]),
            &[(0x0, 0x00, 0x04), (0x2, 0x00, 0x04), (0x4, 0x00, 0x06), (0x1FFF, 0x00, 0x04)],
            0x1004,
        ),
    ]
}

/// SSM counts: MICCREG, virtual register 0, halfword 2, operand byte 2, MICVPSW, virtual PSW: 8; the store: 9.
pub fn set_system_mask() -> Vec<Expected> {
    let completed =
        |case, old, new| expect(("SSM", case), COMPLETED, 9, &[(0x600, old, new)], &SSM_STORED, 0x1004);
    let ended = |case, ending| expect(("SSM", case), ending, 8, &[], &SSM_READ, 0x1000);
    vec![
        completed("EC, old 04, new 07", 0x04, 0x07),
        ended("EC, old 04, new 07, pending, expanded installed, bit 6 one", EXPANDED),
        ended("EC, old 04, new 07, pending, expanded installed, bit 6 zero", REFUSED),
        ended("EC, old 04, new 07, pending, expanded not installed, bit 6 one", REFUSED),
        ended("EC, old 04, new 07, pending, expanded not installed, bit 6 zero", REFUSED),
        ended("EC, old 04, new 84, expanded installed, bit 6 one", EXPANDED),
        ended("EC, old 04, new 84, expanded installed, bit 6 zero", REFUSED),
        ended("EC, old 04, new 84, expanded not installed, bit 6 one", REFUSED),
        ended("EC, old 04, new 84, expanded not installed, bit 6 zero", REFUSED),
        ended("EC, old 04, new 84, expanded installed, bits 2-5 and 7 one, bit 6 zero", REFUSED),
        completed("BC, pending, old FF, new 00", 0xFF, 0x00),
        // "Refuse, even with the expanded assist", switched on or not.
        ended("BC, pending, old 00, new 01, expanded installed, bit 6 one", REFUSED),
        ended("BC, pending, old 00, new 01, expanded installed, bit 6 zero", REFUSED),
        ended("BC, pending, old 00, new 01, expanded not installed, bit 6 one", REFUSED),
        ended("BC, pending, old 00, new 01, expanded not installed, bit 6 zero", REFUSED),
    ]
}

/// STNSM and STOSM counts: MICVPSW, virtual PSW: 2; halfword 2, key of the operand 1, two stores: 7.
pub fn store_then() -> Vec<Expected> {
    let completed = |name, bytes: &[Change]| expect(name, COMPLETED, 7, bytes, &STORE_THEN_STORED, 0x1004);
    let ended = |name, ending| expect(name, ending, 2, &[], &STORE_THEN_READ, 0x1000);
    let stnsm = |case| ("STNSM", case);
    let stosm = |case| ("STOSM", case);
    vec![
        completed(stnsm("EC, old 07, AND FC"), &[(0x600, 0x07, 0x04), (0x2000, 0x00, 0x07)]),
        // 07 AND F8 is 00: bit 5 goes to zero.
        ended(stnsm("EC, old 07, AND F8, expanded installed, bit 6 one"), EXPANDED),
        ended(stnsm("EC, old 07, AND F8, expanded installed, bit 6 zero"), REFUSED),
        ended(stnsm("EC, old 07, AND F8, expanded not installed, bit 6 one"), REFUSED),
        ended(stnsm("EC, old 07, AND F8, expanded not installed, bit 6 zero"), REFUSED),
        ended(stnsm("EC, old 07, AND F8, expanded installed, bits 2, 4, 5 and 7 one, bit 6 zero"), REFUSED),
        // 07 OR 03 is 07: no bit goes to one, and the virtual PSW byte is stored with the same value.
        completed(stosm("EC, pending, old 07, OR 03"), &[(0x2000, 0x00, 0x07)]),
        completed(stosm("BC, pending, old 07, OR 03"), &[(0x2000, 0x00, 0x07)]),
        // Bit 0 goes to one; pending, and bits 6 and 7 go to one.
        ended(stosm("EC, old 07, OR 87, expanded installed, bit 6 one"), EXPANDED),
        ended(stosm("EC, old 07, OR 87, expanded installed, bit 6 zero"), REFUSED),
        ended(stosm("BC, pending, old 04, OR 03, expanded installed, bit 6 one"), EXPANDED),
        ended(stosm("BC, pending, old 04, OR 03, expanded installed, bit 6 zero"), REFUSED),
    ]
}

/// SSK counts: MICRSEG, segment entry, swap address, swap word, page entry: 5; key consulted and set, store: 8.
/// The swap word is at D00 + 8 times 3 = D18. The page is in block 2 or 3, where no table is.
pub fn set_storage_key() -> Vec<Expected> {
    vec![
        // 08003E00
        expect(
            ("SSK", "R1 3F, swap word 0, old key 04, valid page, bit 20 zero"),
            COMPLETED,
            8,
            &[(0xD18, 0x00, 0x08), (0xD1A, 0x00, 0x3E)],
            &[(0, 0x00, 0x04), (1, 0x00, 0x06), (2, 0x04, 0x38)],
            0x1002,
        ),
        // 0200003E
        expect(
            ("SSK", "R1 3F, swap word 0, old key 04, valid page, bit 20 one"),
            COMPLETED,
            8,
            &[(0xD18, 0x00, 0x02), (0xD1B, 0x00, 0x3E)],
            &[(0, 0x00, 0x04), (1, 0x00, 0x06), (3, 0x04, 0x38)],
            0x1002,
        ),
    ]
}
