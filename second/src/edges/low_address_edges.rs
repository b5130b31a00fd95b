//! Edges of low-address protection (document 02, R-6): bit 3 of control register 0 both ways.

use super::Edge;
use crate::setup::{Setup, MICBLOK, VIRTUAL_EC};

pub fn edges() -> Vec<Edge> {
    let mut edges = store_then_edges();
    edges.extend(store_control_edges());
    edges.extend(first_step_and_control_fields());
    edges.extend(translated_edges());
    edges
}

fn stnsm() -> Setup {
    Setup::stnsm([0x07, VIRTUAL_EC], 0xFC)
}

fn store_then_edges() -> Vec<Edge> {
    let stosm = Setup::stosm([0x07, VIRTUAL_EC], 0x03);
    let (at_511, at_512) = (stnsm().operand(0x1FF), stnsm().operand(0x200));
    let (at_0, or_at_512) = (stosm.clone().operand(0), stosm.operand(0x200));
    vec![
        Edge::new(false, "operand 1FF (511), bit 3 zero: stored", &at_511),
        Edge::new(
            false,
            "operand 1FF (511), bit 3 one: protection",
            &at_511.clone().low_address_protection(),
        ),
        Edge::new(false, "operand 200 (512), bit 3 one: stored", &at_512.low_address_protection()),
        Edge::new(false, "operand 000, bit 3 zero: stored", &at_0),
        Edge::new(false, "operand 000, bit 3 one: protection", &at_0.clone().low_address_protection()),
        Edge::new(false, "operand 200 (512), bit 3 one: stored", &or_at_512.low_address_protection()),
    ]
}

fn store_control_edges() -> Vec<Edge> {
    let one_word = |address: u32| Setup::stctl(5, 5).operand(address);
    let two_words = Setup::stctl(6, 7).operand(0x1FC);
    let mut other_bits = one_word(0x1FC);
    other_bits.guest.control_register_0 = 0xEFFF_FFFF;
    vec![
        Edge::new(false, "word at 1FC (508), bit 3 zero: stored", &one_word(0x1FC)),
        Edge::new(
            false,
            "word at 1FC (508), bit 3 one: protection",
            &one_word(0x1FC).low_address_protection(),
        ),
        Edge::new(false, "word at 200 (512), bit 3 one: stored", &one_word(0x200).low_address_protection()),
        Edge::new(
            false,
            "operand 1FE (510), not on a word, bit 3 one: refused by step 4",
            &one_word(0x1FE).low_address_protection(),
        ),
        Edge::new(
            false,
            "words at 1FC and 200, bit 3 one: neither stored",
            &two_words.low_address_protection(),
        ),
        Edge::new(
            false,
            "word at 1FC (508), every bit of control register 0 but bit 3 one: stored",
            &other_bits,
        ),
    ]
}

/// STNSM's step 4, and stores of control fields, which no bit protects.
fn first_step_and_control_fields() -> Vec<Edge> {
    let and_f8 = Setup::stnsm([0x07, VIRTUAL_EC], 0xF8).operand(0x1FF);
    let virtual_psw = stnsm().word(MICBLOK + 8, 0x100).halfword(0x100, 0x0708);
    let ssm = Setup::ssm([0x04, VIRTUAL_EC], 0x07).word(MICBLOK + 8, 0x100).halfword(0x100, 0x0408);
    let mut ssm = ssm.operand(0x1FF);
    ssm.image.put(0x1FF, &[0x07]);
    // Page 3's word is at 100 + 18 = 118.
    let swap_word = Setup::ssk().word(0xC0C, 0x100);
    vec![
        Edge::new(
            false,
            "operand 1FF (511), bit 3 one, AND F8: step 4 comes first",
            &and_f8.low_address_protection(),
        ),
        Edge::new(
            false,
            "virtual PSW at 100, bit 3 one: both bytes stored",
            &virtual_psw.low_address_protection(),
        ),
        Edge::new(
            false,
            "operand 1FF and virtual PSW at 100, bit 3 one: fetched and stored",
            &ssm.low_address_protection(),
        ),
        Edge::new(false, "swap word at 118, bit 3 one: stored", &swap_word.low_address_protection()),
    ]
}

/// 4K pages, 64K segments, the instruction's page 1 in frame 001; the entry of page 0 is at 3400.
fn translated_edges() -> Vec<Edge> {
    let mapped = stnsm().dat(0b10000).map(0x1000, 0x1000);
    let invalid = mapped.clone().operand(0x1FF).halfword(0x3400, 0x0008);
    let frame_2 = mapped.clone().operand(0x1FF).map(0x0000, 0x2000);
    let frame_0 = mapped.operand(0x21FF).halfword(0x3400, 0x0008).map(0x2000, 0x0000);
    vec![
        Edge::new(false, "DAT on, operand 1FF, page invalid, bit 3 zero: page translation", &invalid),
        Edge::new(
            false,
            "DAT on, operand 1FF, page invalid, bit 3 one: protection comes first",
            &invalid.clone().low_address_protection(),
        ),
        Edge::new(false, "DAT on, operand 1FF in frame 002, bit 3 zero: stored at 21FF", &frame_2),
        Edge::new(
            false,
            "DAT on, operand 1FF in frame 002, bit 3 one: protection",
            &frame_2.clone().low_address_protection(),
        ),
        Edge::new(
            false,
            "DAT on, operand 21FF in frame 000, bit 3 one: stored at 1FF",
            &frame_0.low_address_protection(),
        ),
    ]
}
