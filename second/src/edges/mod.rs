//! Every edge of document 01, section "Edges to show", those that come to "expanded" with control register 6 bit 6 both
//! ways (document 02, R-3), those of ISK and RRB, of LRA, of recording, of low-address protection
//! and at the end of storage, as a concrete call.

mod end_of_storage_edges;
mod insert_key_edges;
mod large;
mod load_address_edges;
mod load_address_troubles;
mod low_address_edges;
mod mask_edges;
mod recording_edges;
mod reset_bit_edges;
mod storage_key_edges;
mod store_control_edges;
mod wrong_turns;

use crate::attempt::{Answer, Instruction};
use crate::bits::halfword_bits;
use crate::call::{changes, Change, Request, StorageImage};
use crate::guest::Guest;
use crate::setup::Setup;

/// One edge: a call on its own storage.
pub struct Edge {
    /// The case in words; no two edges have the same instruction and case.
    pub case: String,
    /// Marked (*) in document 01.
    pub marked: bool,
    pub image: StorageImage,
    pub request: Request,
}

/// What an edge gives.
pub struct EdgeResult {
    pub answer: Answer,
    pub bytes: Vec<Change>,
    pub keys: Vec<Change>,
}

impl Edge {
    fn new(marked: bool, case: &str, setup: &Setup) -> Edge {
        Edge { case: case.into(), marked, image: setup.image.clone(), request: setup.request() }
    }

    pub fn mnemonic(&self) -> &'static str {
        Instruction::of_first_halfword(self.request.first_halfword).map_or("other", Instruction::mnemonic)
    }

    /// Make the call.
    pub fn run(&self) -> EdgeResult {
        let (storage_before, keys_before) = (self.image.storage(), self.image.key_bytes());
        let (mut storage, mut keys) = (storage_before.clone(), keys_before.clone());
        let answer = self.request.make(&mut storage, &mut keys);
        EdgeResult { answer, bytes: changes(&storage_before, &storage), keys: changes(&keys_before, &keys) }
    }

    /// One readable line.
    pub fn line(&self) -> String {
        let result = self.run();
        let ending = result.answer.ending;
        format!(
            "{:5} {}{} | ending {} {} | count {} | next {:06X}{} | {}{}",
            self.mnemonic(),
            if self.marked { "(*) " } else { "" },
            self.case,
            ending.number(),
            ending.words(),
            result.answer.count(),
            result.answer.guest.instruction_address(),
            self.result_words(&result.answer.guest),
            change_words("bytes", 6, &result.bytes),
            change_words("; keys", 1, &result.keys),
        )
    }

    /// For ISK the register that R1 names, for RRB the condition code, for LRA both, as the record handed back has
    /// them.
    fn result_words(&self, record: &Guest) -> String {
        let number = halfword_bits(self.request.first_halfword, 8, 11);
        let register = format!(" | register {number}: {:08X}", record.general_register(number));
        let condition_code = format!(" | condition code {}", record.condition_code());
        match Instruction::of_first_halfword(self.request.first_halfword) {
            Some(Instruction::InsertStorageKey) => register,
            Some(Instruction::ResetReferenceBit) => condition_code,
            Some(Instruction::LoadRealAddress) => register + &condition_code,
            _ => String::new(),
        }
    }
}

fn change_words(title: &str, digits: usize, list: &[Change]) -> String {
    if list.is_empty() {
        return format!("{title}: none");
    }
    let words: Vec<String> =
        list.iter().map(|(place, old, new)| format!("{place:0digits$X}: {old:02X} -> {new:02X}")).collect();
    format!("{title}: {}", words.join(", "))
}

/// The edges that need at most 4,194,304 bytes of storage.
pub fn small() -> Vec<Edge> {
    let mut edges = store_control_edges::edges();
    edges.extend(mask_edges::edges());
    edges.extend(storage_key_edges::edges());
    edges.extend(insert_key_edges::edges());
    edges.extend(reset_bit_edges::edges());
    edges.extend(load_address_edges::edges());
    edges.extend(load_address_troubles::edges());
    edges.extend(recording_edges::edges());
    edges.extend(low_address_edges::edges());
    edges.extend(end_of_storage_edges::edges());
    edges.extend(wrong_turns::edges());
    edges
}

/// The edges in more storage than that.
pub fn large() -> Vec<Edge> {
    large::edges()
}
