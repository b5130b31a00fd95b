//! Every edge against values worked out by hand from document 01, with the keys as document 02, R-13 has them,
//! those of low-address protection, of LRA and at the end of storage; with control register 6 bit 6
//! as R-3 has it.
//!
//! Set-up (see `setup.rs`): 16 KiB, PSW key zero, DAT off, instruction at 1000, operand at 2000, MICBLOK at 400,
//! ECBLOK at 500, virtual PSW at 600. Virtual register r is the word A0B0C0D0 + r times 01010101.

mod end_of_storage;
#[path = "../common/expected.rs"]
mod expected;
mod insert_key;
mod load_address;
mod load_address_troubles;
mod low_addresses;
mod recording;
mod reset_bit;
mod section;
mod wrong_turns;

use std::collections::BTreeSet;

use end_of_storage::*;
use expected::Expected;
use insert_key::*;
use load_address::{large_load_real_address, load_real_address};
use load_address_troubles::load_real_address_troubles;
use low_addresses::*;
use recording::*;
use reset_bit::*;
use second::edges::{large, small, Edge};
use section::*;
use wrong_turns::*;

fn expectations() -> Vec<Expected> {
    let mut list = store_control();
    list.extend(set_system_mask());
    list.extend(store_then());
    list.extend(set_storage_key());
    list.extend(insert_storage_key());
    list.extend(reset_reference_bit());
    list.extend(load_real_address());
    list.extend(load_real_address_troubles());
    list.extend(set_storage_key_recording());
    list.extend(other_recording());
    list.extend(store_then_low());
    list.extend(store_control_low());
    list.extend(first_step_and_control_fields());
    list.extend(translated_low());
    list.extend(virtual_psw_at_the_end());
    list.extend(set_storage_key_at_the_end());
    list.extend(reset_reference_bit_at_the_end());
    list.extend(wrong_turns_1_and_2());
    list.extend(wrong_turn_3());
    list.extend(wrong_turn_4());
    list
}

#[test]
fn every_edge_gives_what_the_paper_says() {
    check(&small(), &expectations());
}

#[test]
fn every_edge_in_16_mib_gives_what_the_paper_says() {
    let mut list = large_store_control();
    list.extend(large_low());
    list.push(large_insert_storage_key());
    list.push(large_reset_reference_bit());
    list.extend(large_load_real_address());
    check(&large(), &list);
}

fn check(edges: &[Edge], expectations: &[Expected]) {
    assert_eq!(edges.len(), expectations.len());
    let names: BTreeSet<_> = expectations.iter().map(|expected| expected.name).collect();
    assert_eq!(names.len(), edges.len(), "no two edges have one name");
    for (edge, expected) in edges.iter().zip(expectations) {
        assert_eq!((edge.mnemonic(), edge.case.as_str()), expected.name, "the edges are in this order");
        let result = edge.run();
        let ending = result.answer.ending;
        let given = (ending.number(), ending.code_or_step(), ending.logical_address());
        assert_eq!(given, expected.ending, "{:?}", expected.name);
        assert_eq!(result.answer.count(), expected.count, "{:?}", expected.name);
        assert_eq!(result.bytes, expected.bytes, "{:?}", expected.name);
        assert_eq!(result.keys, expected.keys, "{:?}", expected.name);
        let record = result.answer.guest;
        assert_eq!(record.instruction_address(), expected.next, "{:?}", expected.name);
        let mut alike = expected.set.in_record(edge.request.guest);
        alike.psw_32_63 = record.psw_32_63;
        assert_eq!(record, alike, "nothing else in the record changes: {:?}", expected.name);
    }
}

#[test]
fn storage_of_the_edges() {
    assert!(small().iter().all(|edge| edge.image.storage_size <= 4_194_304));
    assert!(large().iter().all(|edge| edge.image.storage_size > 4_194_304));
    assert!(large().iter().all(|edge| edge.image.key_count == edge.image.storage_size / 2_048));
    assert_eq!(large()[1].image.key_count, 8_193);
}

/// 45 small edges and 4 large ones are those of document 01, recording and the wrong turns; 14 more since document 02,
/// R-3, 21 and 2 of low-address protection; 34 of ISK and 38 of RRB, and one each in 16 MiB; 107 and 3 of LRA
/// 10 at the end of storage.
#[test]
fn number_of_edges() {
    assert_eq!((small().len(), large().len()), (45 + 14 + 21 + 34 + 38 + 107 + 10, 4 + 2 + 2 + 3));
    let case = |place: usize| small()[place].case.clone();
    assert!(
        case(32).ends_with("old key 04, valid page, bit 20 one") && case(33).starts_with("EC, page valid")
    );
    assert!(case(66).starts_with("virtual PSW in the page") && case(67).starts_with("key F9, swap word"));
    assert!(case(104) == "first halfword B214" && case(105).starts_with("virtual pages 2K, segments 64K"));
    assert!(case(211) == "first halfword B030" && case(212) == "tables in the page's own block");
    assert!(case(218).contains("store test records nothing") && case(219).contains("bit 3"));
    assert!(case(239).contains("bit 3") && case(240) == "virtual PSW in the last halfword of storage");
    assert!(case(249).ends_with("not in storage") && case(250).starts_with("wrong turn 1"));
}

/// Document 01 marks three edges of STCTL, five of SSM, two of STNSM, one of STOSM, which is given in both modes, and
/// two of SSK. With bit 6 both ways are two of SSM and one of STNSM, which are expanded, and SSM's refusal in BC mode.
#[test]
fn marked_edges() {
    let marked =
        |mnemonic: &str| small().iter().filter(|edge| edge.marked && edge.mnemonic() == mnemonic).count();
    let counts = ["STCTL", "SSM", "STNSM", "STOSM", "SSK", "ISK", "RRB", "LRA", "other"].map(marked);
    assert_eq!(counts, [3, 5 + 3, 2 + 1, 2, 2, 0, 0, 0, 0]);
    assert!(large().iter().all(|edge| !edge.marked));
}

/// The titles say how bit 6 and the flag are. Of the other bits of control register 6 bit 0 is one, beside MICBLOK's
/// address, but where a title says otherwise.
#[test]
fn set_up_of_bit_6() {
    for edge in small().iter().chain(&large()) {
        let (case, request) = (&edge.case, &edge.request);
        let wrong_turn_3 = case.ends_with("refuse even with expanded");
        let installed = case.contains("expanded installed") || wrong_turn_3;
        assert_eq!(request.expanded, installed, "{case}");
        let bits = match case {
            case if case.contains("bits 2-5 and 7 one, bit 6 zero") => 0xBD,
            case if case.contains("bits 2, 4, 5 and 7 one, bit 6 zero") => 0xAD,
            case if case.contains("bit 6 one") || wrong_turn_3 => 0x82,
            case if case.ends_with("bits 0-3 1010") => 0xA0,
            case if case.ends_with("bits 0-3 1001") => 0x90,
            case if case.ends_with("bits 0-3 1100") => 0xC0,
            _ => 0x80,
        };
        assert_eq!(request.guest.control_register_6 >> 24, bits, "{case}");
    }
}

/// ISK's register, RRB's condition code and both for LRA stand in the line, whatever the ending; ending 3 has the
/// place.
#[test]
fn lines_with_what_is_handed_back() {
    let lines: Vec<String> = small().iter().map(Edge::line).collect();
    for line in [
        "ISK   R1 and R2 register 15 | ending 0 completed | count 8 | next 001002 | register 15: 5A0230AE | \
         bytes: none; keys: 0: 00 -> 04, 1: 00 -> 04",
        "ISK   page invalid, MICVPSW at 4000 | ending 3 not in storage, place 6 | count 5 | next 001000 | \
         register 3: ABCDEF3F | bytes: none; keys: 1: 00 -> 04, 7: 00 -> 04",
        "RRB   key FF, swap word 50C3F9FF, bit 20 zero | ending 0 completed | count 10 | next 001004 | \
         condition code 3 | bytes: 000D18: 50 -> 5C; keys: 0: 00 -> 04, 1: 00 -> 06, 2: 00 -> 04, 4: FF -> FB",
        "RRB   second halfword's page invalid | ending 1 interruption 17 (page translation at 001002) | count 3 \
         | next 001000 | condition code 1 | bytes: none; keys: 0: 00 -> 04, 6: 00 -> 04",
        "LRA   virtual pages 2K, segments 1M, real pages 4K, page entry invalid | ending 0 completed | count 12 \
         | next 001004 | register 3: 00056E1E | condition code 2 | bytes: none; keys: 0: 00 -> 04, 1: 00 -> 04, \
         2: 00 -> 04, 3: 00 -> 04, 5: 00 -> 04",
        "LRA   ECBLOK at 3FFC | ending 3 not in storage, place 4 | count 3 | next 001000 | register 3: ABCDEF3F \
         | condition code 1 | bytes: none; keys: 0: 00 -> 04, 7: 00 -> 04",
        "other first halfword B212 | ending 13 operation code | count 0 | next 001000 | bytes: none; keys: none",
    ] {
        assert!(lines.iter().any(|one| one == line), "{line}");
    }
    let with = |words: &str| lines.iter().filter(|line| line.contains(words)).count();
    assert_eq!((with(" | register "), with(" | condition code ")), (34 + 106, 38 + 106));
}

#[test]
fn every_edge_has_one_line() {
    for edge in small().into_iter().chain(large()) {
        let line = edge.line();
        assert!(line.starts_with(edge.mnemonic()) && !line.contains('\n') && line.contains(&edge.case));
    }
}
