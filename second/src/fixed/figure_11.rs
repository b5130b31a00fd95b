//! Figure 11: fields of RRB. The figure has MICRSEG at 8; document 01 decides: it is at 0.

use super::key_tables::{PageOf, CASES};
use super::layout::translated;
use super::FixedList;
use crate::setup::{Setup, SWAP_WORD};

/// Two more, with bit 20 zero and one.
const SWAP_WORD_CASES: [(&str, bool, u32); 2] =
    [("SWPFLG at 0 and SWPKEY1 at 2", false, 0x02_3000), ("SWPFLG at 0 and SWPKEY2 at 3", false, 0x02_3800)];

pub fn cases() -> Vec<FixedList> {
    let mut cases: Vec<FixedList> = CASES.into_iter().chain(SWAP_WORD_CASES).map(figure_case).collect();
    // The second halfword is logical: in frame 005000. The operand is not, and its page in frame 002000.
    let real = translated(Setup::rrb()).key(4, 0x06).word(SWAP_WORD, 0x90A1_B0C0);
    cases.push(FixedList::one("figure 11: DAT on, fields real, instruction logical", &real, &[]));
    cases
}

/// The page is in frame 002000: keys 4 and 5. Those of the second set's frame have the reference bit alone.
fn figure_case((case, segments_of_1m, address): (&str, bool, u32)) -> FixedList {
    let page = PageOf { segments_of_1m, address, page_entry: 0x0020, swap_word: 0x90A1_B4C2 };
    let setup = Setup::rrb().key(4, 0x06).key(5, 0x02).key(6, 0x04).key(7, 0x04).operand(address);
    let setup = page.put(setup, &[]);
    FixedList::one(&format!("figure 11: {case}{}", page.words()), &setup, &page.fields())
}
