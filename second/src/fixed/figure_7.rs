//! Figure 7: fields of ISK.

use super::key_tables::{PageOf, CASES};
use super::layout::{around, around_micblok, translated, DECOY, MICRSEG, MICVPSW, VMPSW};
use super::FixedList;
use crate::setup::{Setup, SWAP_WORD, VIRTUAL_BC, VIRTUAL_EC};

/// Two more, with bit 20 zero and one.
const SWAP_WORD_CASES: [(&str, bool, u32); 2] =
    [("SWPKEY1 at 8PX+2", false, 0x02_3000), ("SWPKEY2 at 8PX+3", false, 0x02_3800)];

pub fn cases() -> Vec<FixedList> {
    let mut cases: Vec<FixedList> = CASES.into_iter().chain(SWAP_WORD_CASES).map(figure_case).collect();
    cases.extend(virtual_psw_cases());
    // With DAT on, and logical pages elsewhere than the fields.
    let real = translated(Setup::isk(VIRTUAL_EC)).key(2, 0x06).word(SWAP_WORD, 0x90A1_B0C0);
    cases.push(FixedList::one("figure 7: DAT on, all fields real", &real, &[]));
    cases
}

/// The virtual keys B0 and C0 have neither bit, keys 2 and 3 have both or the change bit, those of the second set's
/// frame the reference bit. The virtual PSW is in EC mode.
fn figure_case((case, segments_of_1m, address): (&str, bool, u32)) -> FixedList {
    let page = PageOf { segments_of_1m, address, page_entry: 0x0010, swap_word: 0x90A1_B0C0 };
    let setup = Setup::isk(VIRTUAL_EC).key(2, 0x06).key(3, 0x02).key(6, 0x04).key(7, 0x04);
    let setup = page.put(setup.register(4, address), &[MICVPSW]);
    FixedList::one(&format!("figure 7: {case}{}", page.words()), &setup, &page.fields())
}

/// Wherever another MICVPSW leads, the virtual PSW is 0000, and so in BC mode. Of its two bytes bit 12 of the second
/// decides. Key 2 is 53 and has the change bit.
fn virtual_psw_cases() -> Vec<FixedList> {
    let place = around_micblok(Setup::isk(VIRTUAL_EC), DECOY, &[MICRSEG, MICVPSW]);
    let ones = Setup::isk(VIRTUAL_EC).word(MICVPSW.address, 0xFF00_0000 | VMPSW.address);
    let ec = around(Setup::isk(VIRTUAL_EC), VMPSW, 0x00);
    let bc = around(Setup::isk(VIRTUAL_BC), VMPSW, 0x4C).halfword(VMPSW.address, 0xFFF7);
    vec![
        FixedList::one("figure 7: MICVPSW at 8", &place, &[MICVPSW]),
        FixedList::one("figure 7: MICVPSW bits 0-7 ones", &ones, &[]),
        FixedList::one("figure 7: VMPSW of 2 bytes at 0, EC, neighbours 00", &ec, &[VMPSW]),
        FixedList::one("figure 7: VMPSW of 2 bytes at 0, BC, neighbours 4C", &bc, &[VMPSW]),
    ]
}
