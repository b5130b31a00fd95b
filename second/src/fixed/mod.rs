//! Fixed calls that open every file of calls: the manual's figures 13 to 18, 6, 7, 10 and 11 of ISK and RRB, and 9 of
//! LRA; every bit of the system mask, bad calls in every combination, low-address protection, the expanded assist
//! switched on, the steps of ISK and RRB, the second halfword of RRB and LRA, ISK and RRB with a fetch in the page's
//! own block, first halfwords beside those of all three; LRA's condition codes in every format, its bits, its steps,
//! its operand's address and entries that go round; and the impostors' lists.

mod expanded;
mod figure_10;
mod figure_11;
mod figure_13;
mod figure_14;
mod figure_15;
mod figure_16;
mod figure_6;
mod figure_7;
mod figure_9;
mod figures_17_18;
mod impostors;
mod key_steps;
mod key_tables;
mod layout;
mod low_addresses;
mod lra_address;
mod lra_bits;
mod lra_formats;
mod lra_steps;
mod mask_bits;
mod order;
mod other_codes;
mod own_block;
mod second_halfword;

use crate::attempt::Instruction;
use crate::call::{Request, StorageImage};
use crate::setup::Setup;

/// A field of a figure: where it is, and its number of bytes.
#[derive(Clone, Copy, Debug)]
pub struct Field {
    pub name: &'static str,
    pub address: u32,
    pub length: u32,
}

/// One call, with the case in words; no two have the same instruction and case.
#[derive(Clone, Debug)]
pub struct FixedCall {
    pub case: String,
    pub request: Request,
}

impl FixedCall {
    pub fn mnemonic(&self) -> &'static str {
        Instruction::of_first_halfword(self.request.first_halfword).map_or("other", Instruction::mnemonic)
    }
}

/// Calls on one storage, each later one on what the one before it left.
#[derive(Clone, Debug)]
pub struct FixedList {
    pub image: StorageImage,
    pub calls: Vec<FixedCall>,
    /// Fields that the (only) call must look for just here: elsewhere it would find something else.
    pub fields: Vec<Field>,
}

impl FixedList {
    /// One call, and the fields that decide it.
    fn one(case: &str, setup: &Setup, fields: &[Field]) -> FixedList {
        let calls = vec![FixedCall { case: case.into(), request: setup.request() }];
        FixedList { image: setup.image.clone(), calls, fields: fields.to_vec() }
    }

    /// Calls on the storage of the first set-up.
    fn several(image_of: &Setup, calls: &[(&str, &Setup)]) -> FixedList {
        let call =
            |&(case, setup): &(&str, &Setup)| FixedCall { case: case.into(), request: setup.request() };
        FixedList {
            image: image_of.image.clone(),
            calls: calls.iter().map(call).collect(),
            fields: Vec::new(),
        }
    }
}

/// Figures 13 to 18, each case a list of one call.
pub fn figures() -> Vec<FixedList> {
    let mut lists = figure_13::cases();
    lists.extend(figure_14::cases());
    lists.extend(figure_15::cases());
    lists.extend(figure_16::cases());
    lists.extend(figures_17_18::cases());
    lists
}

/// Figures 6, 7, 10 and 11, each case a list of one call.
pub fn key_figures() -> Vec<FixedList> {
    let mut lists = figure_6::cases();
    lists.extend(figure_7::cases());
    lists.extend(figure_10::cases());
    lists.extend(figure_11::cases());
    lists
}

/// Figure 9, each case a list of one call.
pub fn lra_figure() -> Vec<FixedList> {
    figure_9::cases()
}

/// Every bit of the system mask, each case a list of one call.
pub fn mask_bits() -> Vec<FixedList> {
    mask_bits::cases()
}

/// Bad calls in every combination, each case a list of one call.
pub fn bad_calls() -> Vec<FixedList> {
    order::cases()
}

/// Low-address protection, each case a list of one call.
pub fn low_addresses() -> Vec<FixedList> {
    low_addresses::cases()
}

/// The expanded assist switched on, each case a list of one call.
pub fn expanded_assist() -> Vec<FixedList> {
    expanded::cases()
}

/// The steps of ISK and RRB, each case a list of one call.
pub fn key_steps() -> Vec<FixedList> {
    key_steps::cases()
}

/// The second halfword of RRB and LRA, each case a list of one call.
pub fn second_halfwords() -> Vec<FixedList> {
    second_halfword::cases()
}

/// ISK and RRB with a fetch in the page's own block, each case a list of one call.
pub fn own_blocks() -> Vec<FixedList> {
    own_block::cases()
}

/// First halfwords beside those of ISK, RRB and LRA, each case a list of one call.
pub fn other_codes() -> Vec<FixedList> {
    other_codes::cases()
}

/// Each condition code of LRA in every format, each case a list of one call.
pub fn lra_formats() -> Vec<FixedList> {
    lra_formats::cases()
}

/// LRA bit by bit, each case a list of one call.
pub fn lra_bits() -> Vec<FixedList> {
    lra_bits::cases()
}

/// The steps of LRA, each case a list of one call.
pub fn lra_steps() -> Vec<FixedList> {
    lra_steps::cases()
}

/// LRA's address by base and index, and entries that go round, each case a list of one call.
pub fn lra_addresses() -> Vec<FixedList> {
    lra_address::cases()
}

pub fn impostor_lists() -> Vec<FixedList> {
    impostors::lists()
}

/// All of them with their titles, in the order in which a file of calls has them.
pub fn all() -> [(&'static str, Vec<FixedList>); 16] {
    [
        ("Figures 13 to 18", figures()),
        ("Figures 6, 7, 10 and 11", key_figures()),
        ("Figure 9", lra_figure()),
        ("Every bit of the system mask", mask_bits()),
        ("Bad calls: every combination", bad_calls()),
        ("Low-address protection", low_addresses()),
        ("Expanded assist switched on", expanded_assist()),
        ("Steps of ISK and RRB", key_steps()),
        ("Second halfword of RRB and LRA", second_halfwords()),
        ("ISK and RRB in the page's own block", own_blocks()),
        ("First halfwords beside ISK, RRB and LRA", other_codes()),
        ("Condition codes of LRA in every format", lra_formats()),
        ("Bits of LRA's registers and entries", lra_bits()),
        ("Steps of LRA", lra_steps()),
        ("Addresses of LRA", lra_addresses()),
        ("Lists for the impostors", impostor_lists()),
    ]
}
