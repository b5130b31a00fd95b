//! Figure 14: fields of SSK.

use super::key_tables::{PageOf, CASES};
use super::layout::translated;
use super::FixedList;
use crate::setup::Setup;

/// The swap word's own fields, with bit 20 zero and one.
const SWAP_WORD_CASES: [(&str, bool, u32); 2] =
    [("SWPFLG at 0 and SWPKEY1 at 2", false, 0x02_3000), ("SWPFLG at 0 and SWPKEY2 at 3", false, 0x02_3800)];

pub fn cases() -> Vec<FixedList> {
    let mut cases: Vec<FixedList> = CASES.into_iter().chain(SWAP_WORD_CASES).map(figure_case).collect();
    cases.push(FixedList::one(
        "figure 14: DAT on, all fields real",
        &translated(Setup::ssk()).key(2, 0x06),
        &[],
    ));
    cases
}

fn figure_case((case, segments_of_1m, address): (&str, bool, u32)) -> FixedList {
    let page = PageOf { segments_of_1m, address, page_entry: 0x0010, swap_word: 0x90A1_B2C3 };
    let setup = Setup::ssk().key(2, 0x06).key(3, 0x02).key(6, 0x04).key(7, 0x04).register(4, address);
    let setup = page.put(setup, &[]);
    FixedList::one(&format!("figure 14: {case}{}", page.words()), &setup, &page.fields())
}
