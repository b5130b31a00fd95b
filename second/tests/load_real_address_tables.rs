//! LRA, steps 6 to 24: address, virtual tables, both walks by the real tables, in all formats (document 002).
//!
//! 345E78 is 64K: segment 34, page 5 (4K) or 0B (2K); 1M: segment 3, page 45 (4K) or 8B (2K). The virtual segment table
//! is at virtual 123840, the virtual page table at 056D08; they are at 2840 and 1D08.

mod common;

use common::*;
use second::setup::{Setup, ECBLOK, MICBLOK};

/// Virtual control register 0; segment entry: virtual and real address, word; page entry likewise; its invalid bit, a
/// format bit; what is loaded.
struct Virtual {
    register_0: u32,
    segment: (u32, u32, u32),
    page: (u32, u32, u16),
    invalid: u16,
    format: u16,
    loaded: u32,
}

/// 2K and 64K, 2K and 1M, 4K and 64K, 4K and 1M. Segment entries: 123840 + 4 * 34, 123840 + 4 * 3. Page entries: 056D08
/// and twice 0B, 8B, 5, 45.
const VIRTUAL: [Virtual; 4] = [
    Virtual {
        register_0: 0x0040_0000,
        segment: (0x12_3910, 0x2910, 0x5005_6D08),
        page: (0x05_6D1E, 0x1D1E, 0x5678),
        invalid: 0x0004,
        format: 0x0002,
        loaded: 0x0056_7E78,
    },
    Virtual {
        register_0: 0x0050_0000,
        segment: (0x12_384C, 0x284C, 0x4005_6D08),
        page: (0x05_6E1E, 0x1E1E, 0x9AB0),
        invalid: 0x0004,
        format: 0x0002,
        loaded: 0x009A_B678,
    },
    Virtual {
        register_0: 0x0080_0000,
        segment: (0x12_3910, 0x2910, 0x5005_6D08),
        page: (0x05_6D12, 0x1D12, 0xABC0),
        invalid: 0x0008,
        format: 0x0004,
        loaded: 0x00AB_CE78,
    },
    Virtual {
        register_0: 0x0090_0000,
        segment: (0x12_384C, 0x284C, 0x4005_6D08),
        page: (0x05_6D92, 0x1D92, 0x1230),
        invalid: 0x0008,
        format: 0x0004,
        loaded: 0x0012_3E78,
    },
];

/// MICRSEG; segment entry and its word, page entry and its halfword, of the first walk and of the second; the invalid
/// bit and a format bit of a page entry.
struct Real {
    micrseg: u32,
    walks: [(u32, u32, u32, u16); 2],
    invalid: u16,
    format: u16,
}

/// 4K and 64K, 2K and 64K, 4K and 1M, 2K and 1M. Segments 12 and 05, or 1 and 0. Pages 3 and 6, 7 and 0D, 23 and 56, 47
/// and AD, in page tables at C10 and D00.
const REAL: [Real; 4] = [
    Real {
        micrseg: 0x0100_0800,
        walks: [(0x848, 0x3000_0C10, 0xC16, 0x0020), (0x814, 0x6000_0D00, 0xD0C, 0x0010)],
        invalid: 0x0008,
        format: 0x0004,
    },
    Real {
        micrseg: 0x0100_0802,
        walks: [(0x848, 0x3000_0C10, 0xC1E, 0x0028), (0x814, 0x6000_0D00, 0xD1A, 0x0018)],
        invalid: 0x0004,
        format: 0x0002,
    },
    Real {
        micrseg: 0x0000_0801,
        walks: [(0x804, 0x2000_0C10, 0xC56, 0x0020), (0x800, 0x5000_0D00, 0xDAC, 0x0010)],
        invalid: 0x0008,
        format: 0x0004,
    },
    Real {
        micrseg: 0x0000_0803,
        walks: [(0x804, 0x2000_0C10, 0xC9E, 0x0028), (0x800, 0x5000_0D00, 0xE5A, 0x0018)],
        invalid: 0x0004,
        format: 0x0002,
    },
];

fn lra(of: &Virtual, real: &Real) -> Setup {
    Setup::lra().word(ECBLOK, of.register_0).word(MICBLOK, real.micrseg)
}

fn loads(setup: &Setup, count: usize, register_3: u32, code: u32) -> Ran {
    expect_set(setup, COMPLETED, count, Set::RegisterAndCode(3, register_3, code))
}

fn each(test: impl Fn(&Virtual, &Real, Setup)) {
    for of in &VIRTUAL {
        for real in &REAL {
            test(of, real, lra(of, real));
        }
    }
}

#[test]
fn code_0() {
    each(|of, real, setup| {
        let ran = loads(&setup, 12, of.loaded, 0);
        let first = real.walks.map(|walk| (walk.0, walk.2));
        let named = |entry: usize| ran.named_bytes(entry)[0];
        assert_eq!([(named(6), named(7)), (named(9), named(10))], first);
        assert_eq!((named(8), named(11)), (of.segment.1, of.page.1));
        // Bit 15 of the page entry, and bits 29-30 of the segment entry, do not matter.
        let setup = setup.halfword(of.page.1, of.page.2 | 1).word(of.segment.1, of.segment.2 | 6);
        loads(&setup, 12, of.loaded, 0);
    });
}

/// Step 13 comes before 14, and 14 before 15.
#[test]
fn code_1() {
    each(|of, _, setup| {
        for bits in [0x0000_0001, 0x0800_0001, 0x0F00_0007] {
            loads(&setup.clone().word(of.segment.1, of.segment.2 | bits), 9, of.segment.0, 1);
        }
        loads(&setup.clone().word(of.segment.1, 0x0000_0001), 9, of.segment.0, 1);
        for bits in [0x0100_0000, 0x0200_0000, 0x0400_0000, 0x0800_0000] {
            expect(&setup.clone().word(of.segment.1, of.segment.2 | bits), REFUSED, 9);
            expect(&setup.clone().word(of.segment.1, of.segment.2 & 0x0FFF_FFFF | bits), REFUSED, 9);
        }
    });
}

/// Step 22 comes before 23.
#[test]
fn code_2() {
    each(|of, _, setup| {
        let entry = |bits: u16| setup.clone().halfword(of.page.1, of.page.2 | bits);
        loads(&entry(of.invalid), 12, of.page.0, 2);
        loads(&entry(of.invalid | of.format | 2), 12, of.page.0, 2);
        expect(&entry(of.format), REFUSED, 12);
        expect(&entry(2), REFUSED, 12);
    });
}

/// Steps 6 and 15. Address bits 8-11 are 3; the page index begins with 5 (64K) or 4 (1M).
#[test]
fn code_3() {
    each(|of, _, setup| {
        for length in [0x00, 0x01, 0x02, 0x03, 0x04, 0x13, 0xFF] {
            let setup = setup.clone().word(ECBLOK + 4, length << 24 | 0x12_3840);
            if of.register_0 & 0x0010_0000 == 0 && length < 3 {
                loads(&setup, 6, of.segment.0, 3);
            } else {
                loads(&setup, 12, of.loaded, 0);
            }
        }
        for length in 0..16 {
            let setup = setup.clone().word(of.segment.1, length << 28 | 0x05_6D08);
            if length < of.segment.2 >> 28 {
                loads(&setup, 9, of.page.0, 3);
            } else {
                loads(&setup, 12, of.loaded, 0);
            }
        }
    });
}

/// Steps 9 and 18, 11 and 20: entries of either walk. A walk's segment entry is the seventh or the tenth.
#[test]
fn entries_of_the_real_tables() {
    each(|of, real, setup| {
        for (number, (segment, word, page, halfword)) in real.walks.into_iter().enumerate() {
            let count = 7 + 3 * number;
            let with_word = |word: u32| setup.clone().word(segment, word);
            for wrong in [word | 1, word | 0x0100_0000, word | 0x0800_0000, word - 0x1000_0000] {
                expect(&with_word(wrong), REFUSED, count);
            }
            loads(&with_word(word | 0xF000_0006), 12, of.loaded, 0);
            for bits in [real.invalid, real.format, 0x0002, real.invalid | real.format] {
                expect(&setup.clone().halfword(page, halfword | bits), REFUSED, count + 1);
            }
            loads(&setup.clone().halfword(page, halfword | 1), 12, of.loaded, 0);
        }
    });
}

/// Steps 7 and 16, for real 64K segments alone: bits 8-11 of an entry's address are 1 (segment entry) and 0 (page
/// entry), or 2 where the virtual page table is at 256D08, whose segment 25 has its entry at 894 and, 1M, at 808.
#[test]
fn length_of_the_real_segment_table() {
    each(|of, real, setup| {
        let of_1m = real.micrseg & 1 == 1;
        let tables = setup.word(0x894, 0x6000_0D00).word(0x808, 0x5000_0D00);
        let moved = tables.clone().word(of.segment.1, of.segment.2 | 0x0020_0000);
        for length in [0x00, 0x01, 0x02, 0x12, 0xFF] {
            let micrseg = length << 24 | real.micrseg & 0x00FF_FFFF;
            let (setup, moved) =
                (tables.clone().word(MICBLOK, micrseg), moved.clone().word(MICBLOK, micrseg));
            match length {
                0 if !of_1m => [expect(&setup, REFUSED, 6), expect(&moved, REFUSED, 6)],
                1 if !of_1m => [loads(&setup, 12, of.loaded, 0), expect(&moved, REFUSED, 9)],
                _ => [loads(&setup, 12, of.loaded, 0), loads(&moved, 12, of.loaded, 0)],
            };
        }
    });
}

/// A code that needs no more is given before anything that comes later is looked at.
#[test]
fn codes_before_later_trouble() {
    each(|of, real, setup| {
        // Segment invalid, page table too short: nothing of the second walk is looked at.
        let second = setup.clone().word(real.walks[1].0, 0x0000_0001);
        loads(&second.clone().word(of.segment.1, of.segment.2 | 1), 9, of.segment.0, 1);
        loads(&second.word(of.segment.1, 0x0005_6D08), 9, of.page.0, 3);
        // Segment table too short (64K): not even of the first.
        if of.register_0 & 0x0010_0000 == 0 {
            let no_tables = setup.word(MICBLOK, 0x0000_4000).word(ECBLOK + 4, 0x0212_3840);
            loads(&no_tables, 6, of.segment.0, 3);
        }
    });
}
