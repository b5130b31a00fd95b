//! LRA with each condition code, in the four formats of the virtual tables and the four of the real ones. Tables are
//! just long enough, or their length is one less; with 1M segments the segment tables have length 0, which is not
//! looked at.

use super::FixedList;
use crate::setup::{
    Setup, ECBLOK, REAL_SEGMENT_TABLE, VIRTUAL_2K_1M, VIRTUAL_2K_64K, VIRTUAL_4K_1M, VIRTUAL_4K_64K,
    VIRTUAL_PAGE_ENTRY, VIRTUAL_PAGE_ENTRY_1M, VIRTUAL_PAGE_ENTRY_2K, VIRTUAL_PAGE_ENTRY_2K_1M,
    VIRTUAL_SEGMENT_ENTRY, VIRTUAL_SEGMENT_ENTRY_1M, VIRTUAL_SEGMENT_TABLE,
};

/// A format of the virtual tables: in words, in virtual control register 0, where its entries are, and the invalid bit
/// of its page entry.
struct VirtualFormat {
    words: &'static str,
    register_0: u32,
    segments_of_1m: bool,
    segment_entry: u32,
    page_entry: u32,
    page_invalid: u16,
}

const VIRTUAL_FORMATS: [VirtualFormat; 4] = [
    VirtualFormat {
        words: "2K, 64K",
        register_0: VIRTUAL_2K_64K,
        segments_of_1m: false,
        segment_entry: VIRTUAL_SEGMENT_ENTRY,
        page_entry: VIRTUAL_PAGE_ENTRY_2K,
        page_invalid: 0x0004,
    },
    VirtualFormat {
        words: "2K, 1M",
        register_0: VIRTUAL_2K_1M,
        segments_of_1m: true,
        segment_entry: VIRTUAL_SEGMENT_ENTRY_1M,
        page_entry: VIRTUAL_PAGE_ENTRY_2K_1M,
        page_invalid: 0x0004,
    },
    VirtualFormat {
        words: "4K, 64K",
        register_0: VIRTUAL_4K_64K,
        segments_of_1m: false,
        segment_entry: VIRTUAL_SEGMENT_ENTRY,
        page_entry: VIRTUAL_PAGE_ENTRY,
        page_invalid: 0x0008,
    },
    VirtualFormat {
        words: "4K, 1M",
        register_0: VIRTUAL_4K_1M,
        segments_of_1m: true,
        segment_entry: VIRTUAL_SEGMENT_ENTRY_1M,
        page_entry: VIRTUAL_PAGE_ENTRY_1M,
        page_invalid: 0x0008,
    },
];

/// Formats of the real tables, in words and as MICRSEG.
const REAL_FORMATS: [(&str, u32); 4] = [
    ("2K, 64K", 0x0100_0002 | REAL_SEGMENT_TABLE),
    ("2K, 1M", 0x0000_0003 | REAL_SEGMENT_TABLE),
    ("4K, 64K", 0x0100_0000 | REAL_SEGMENT_TABLE),
    ("4K, 1M", 0x0000_0001 | REAL_SEGMENT_TABLE),
];

pub fn cases() -> Vec<FixedList> {
    VIRTUAL_FORMATS
        .iter()
        .flat_map(|format| REAL_FORMATS.into_iter().flat_map(|real| cases_of_formats(format, real)))
        .collect()
}

fn cases_of_formats(format: &VirtualFormat, (real, micrseg): (&str, u32)) -> Vec<FixedList> {
    let length = if format.segments_of_1m { 0x0000_0000 } else { 0x0300_0000 };
    let setup = Setup::lra_of(format.register_0, micrseg).word(ECBLOK + 4, length | VIRTUAL_SEGMENT_TABLE);
    let segment_word = setup.image.word(format.segment_entry);
    let page_halfword = (setup.image.word(format.page_entry) >> 16) as u16;
    let with_segment = |word: u32| setup.clone().word(format.segment_entry, word);
    let invalid_page = setup.clone().halfword(format.page_entry, page_halfword | format.page_invalid);
    let case = |code: &str, setup: &Setup| {
        FixedList::one(&format!("format: {}, real {real}, {code}", format.words), setup, &[])
    };
    let mut cases = vec![
        case("code 0", &setup),
        case("code 1", &with_segment(segment_word | 1)),
        case("code 2", &invalid_page),
        case("code 3 by page length", &with_segment(segment_word - 0x1000_0000)),
    ];
    if !format.segments_of_1m {
        let short = setup.word(ECBLOK + 4, 0x0200_0000 | VIRTUAL_SEGMENT_TABLE);
        cases.push(case("code 3 by segment length", &short));
    }
    cases
}
