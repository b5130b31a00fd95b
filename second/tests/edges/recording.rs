//! Edges of recording (document 02, R-13). All keys are 00 at first but where it says otherwise.

use crate::expected::*;

/// SSK counts: five fields, key consulted and set, store: 8. R1 low byte 3F: key 38, byte 3E.
pub fn set_storage_key_recording() -> Vec<Expected> {
    vec![
        // Block 1 is read by the tables' fetches: reference bit, so 0200003E at D18. Then 38, then the store: 3E.
        expect(
            ("SSK", "tables in the page's own block"),
            COMPLETED,
            8,
            &[(0xD18, 0x00, 0x02), (0xD1B, 0x00, 0x3E)],
            &[(0, 0x00, 0x04), (1, 0x00, 0x3E)],
            0x1002,
        ),
        // Block 0 is read by MICRSEG's fetch: 08003E00 at D18. Then 38; the store is in block 1.
        expect(
            ("SSK", "MICBLOK in the page's own block"),
            COMPLETED,
            8,
            &[(0xD18, 0x00, 0x08), (0xD1A, 0x00, 0x3E)],
            &[(0, 0x00, 0x38), (1, 0x00, 0x06)],
            0x1002,
        ),
        // Swap word 00000834 at FFE to 1001: its fetch reads blocks 1 and 2, so 08003E34; its store is in both.
        expect(
            ("SSK", "swap word across a block boundary, page in the second block"),
            COMPLETED,
            8,
            &[(0xFFE, 0x00, 0x08), (0x1000, 0x08, 0x3E)],
            &[(0, 0x00, 0x04), (1, 0x00, 0x06), (2, 0x00, 0x3E)],
            0x1002,
        ),
    ]
}

/// STCTL, STNSM and SSM.
pub fn other_recording() -> Vec<Expected> {
    let refused = "EC, old 07, AND F8, refused after two fetches, whose reference bits stay";
    let outside = "virtual PSW partly not in storage records nothing there";
    let protected = "words in two blocks, the second protected: the store test records nothing";
    vec![
        // MICCREG, halfword 2, register 15 at 7FE to 801 in blocks 0 and 1, key, store.
        expect(
            ("STCTL", "register 15 across a block boundary"),
            COMPLETED,
            6,
            &words(&[(0x2000, 0xAFBFCFDF)]),
            &[(0, 0x00, 0x04), (1, 0x00, 0x04), (2, 0x00, 0x04), (4, 0x00, 0x06)],
            0x1004,
        ),
        // MICVPSW in block 0, virtual PSW in block 5; F9 and 02 keep their other bits.
        expect(("STNSM", refused), REFUSED, 2, &[], &[(0, 0xF9, 0xFD), (5, 0x02, 0x06)], 0x1000),
        // MICCREG, register 0, halfword 2, operand byte 2, MICVPSW; 3FFF in block 7 and 4000 make no entry.
        expect(
            ("SSM", outside),
            (3, 8, 0),
            7,
            &[],
            &[(0, 0x00, 0x04), (2, 0x00, 0x04), (4, 0x00, 0x04)],
            0x1000,
        ),
        // MICCREG, halfword 2, registers 6 and 7, two keys; keys 4 (10) and 5 (20) stay.
        expect(("STCTL", protected), PROTECTION, 7, &[], &[(0, 0x00, 0x04), (2, 0x10, 0x14)], 0x1000),
    ]
}
