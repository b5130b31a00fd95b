//! Edges at the end of storage (document 02, R-10): what is stored last in a call, virtual PSW byte 0 or the swap word,
//! was fetched in it before, and a key that is set was consulted, so that the store needs no test; one byte on, the
//! fetch ends the call. 16 KiB: 3FFF is the last byte, 7 the last block. All keys are 00 but where a set-up gives them.

use super::Edge;
use crate::setup::{Setup, MICBLOK, PAGE_ENTRY, SWAP_ADDRESS, SWAP_TABLE, SWAP_WORD, VIRTUAL_EC};

/// The last places of a halfword, of a word and of a byte.
const LAST_HALFWORD: u32 = 0x3FFE;
const LAST_WORD: u32 = 0x3FFC;
const LAST_BYTE: u32 = 0x3FFF;

/// The old word of SSK: every byte differs from what a wrong store would put there (3E, or a zero).
const OLD_WORD: u32 = 0x5011_2233;

pub fn edges() -> Vec<Edge> {
    let mut edges = virtual_psw_edges();
    edges.extend(storage_key_edges());
    edges.extend(reset_bit_edges());
    edges
}

fn edge(case: &str, setup: &Setup) -> Edge {
    Edge::new(false, case, setup)
}

/// Virtual PSW at this address; the one at 600 stays, unused.
fn virtual_psw_at(address: u32, halfword: u16, setup: Setup) -> Setup {
    setup.word(MICBLOK + 8, address).halfword(address, halfword)
}

fn virtual_psw_edges() -> Vec<Edge> {
    let ssm = Setup::ssm([0x04, VIRTUAL_EC], 0x07);
    let stnsm = Setup::stnsm([0x07, VIRTUAL_EC], 0xFC).operand(LAST_BYTE);
    let stosm = Setup::stosm([0x04, VIRTUAL_EC], 0x03).operand(LAST_BYTE);
    let second_byte = "virtual PSW in the last halfword of storage, operand in its second byte";
    vec![
        edge("virtual PSW in the last halfword of storage", &virtual_psw_at(LAST_HALFWORD, 0x0408, ssm)),
        edge(second_byte, &virtual_psw_at(LAST_HALFWORD, 0x0708, stnsm.clone())),
        edge(second_byte, &virtual_psw_at(LAST_HALFWORD, 0x0408, stosm)),
        // 3FFF is 07; the 08 would be at 4000.
        edge(
            "virtual PSW one byte on, its second byte not in storage",
            &virtual_psw_at(LAST_HALFWORD + 1, 0x0708, stnsm),
        ),
    ]
}

/// Page 3's swap word at this address: the swap table is 18 (hex) before it. The word at D18 stays, unused.
fn swap_word_at(address: u32, word: u32, setup: Setup) -> Setup {
    setup.word(SWAP_ADDRESS, address - (SWAP_WORD - SWAP_TABLE)).word(address, word)
}

/// The page is in frame 001: block 2 by bit 20 zero.
fn storage_key_edges() -> Vec<Edge> {
    let last_word = swap_word_at(LAST_WORD, OLD_WORD, Setup::ssk());
    let one_byte_on = swap_word_at(LAST_WORD + 1, OLD_WORD, Setup::ssk());
    // Frame 003, bit 20 one: 3800.
    let last_block = last_word.clone().halfword(PAGE_ENTRY, 0x0030).register(4, 0x5A02_3800);
    // Frame 001 all the same.
    let invalid = last_word.clone().halfword(PAGE_ENTRY, 0x0018);
    vec![
        edge("swap word in the last word of storage", &last_word),
        edge("swap word one byte on, its last byte not in storage", &one_byte_on),
        edge("key of the last block, swap word in that block", &last_block),
        edge("invalid page, swap word in the last word of storage", &invalid),
    ]
}

/// In the last block by frame 003 and bit 20 one; virtual bit 29 is one and 30 zero, so that the change value in the
/// condition code is the key's. One byte on, page and word are the usual ones (frame 002, 50C3FDFF), and key 7 is 00.
fn reset_bit_edges() -> Vec<Edge> {
    let last_block = swap_word_at(LAST_WORD, 0x50C3_FFFD, Setup::rrb().operand(0x02_3800));
    let last_block = last_block.halfword(PAGE_ENTRY, 0x0030).key(7, 0xFF);
    let one_byte_on = swap_word_at(LAST_WORD + 1, 0x50C3_FDFF, Setup::rrb());
    vec![
        edge("key of the last block, swap word in that block", &last_block),
        edge("swap word one byte on, its last byte not in storage", &one_byte_on),
    ]
}
