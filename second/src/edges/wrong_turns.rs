//! "Wrong turns to shut out": calls at which the wrong program would give something else.

use super::Edge;
use crate::setup::{Setup, MICBLOK, VIRTUAL_BC, VIRTUAL_EC, VIRTUAL_PSW};

pub fn edges() -> Vec<Edge> {
    let mut edges = pending_bit_in_address();
    edges.extend(stored_before_last_test());
    edges.extend(second_halfword_as_itself());
    edges.extend(whole_halfword_written());
    edges
}

/// MICVPSW 80000600, and FF000600 with bits 1-7 one as well: the address is 000600 all the same.
fn pending_bit_in_address() -> Vec<Edge> {
    let ssm = Setup::ssm([0x07, VIRTUAL_EC], 0x04).pending();
    let stnsm = Setup::stnsm([0x07, VIRTUAL_EC], 0xFC).pending();
    let stosm = Setup::stosm([0x07, VIRTUAL_EC], 0x04).pending();
    let all_ones = 0xFF00_0000 | VIRTUAL_PSW;
    vec![
        Edge::new(false, "wrong turn 1: pending bit is no part of the address", &ssm),
        Edge::new(
            false,
            "wrong turn 1: MICVPSW bits 0-7 are no part of the address",
            &ssm.clone().word(MICBLOK + 8, all_ones),
        ),
        Edge::new(false, "wrong turn 1: pending bit is no part of the address", &stnsm),
        Edge::new(false, "wrong turn 1: pending bit is no part of the address", &stosm),
    ]
}

/// The first word can be stored, the last cannot: nothing is stored.
fn stored_before_last_test() -> Vec<Edge> {
    let protected = Setup::stctl(3, 5).operand(0x27F8).psw_key(1).key(4, 0x10).key(5, 0x20);
    let not_in_storage = Setup::stctl(3, 5).operand(0x3FF8);
    vec![
        Edge::new(false, "wrong turn 2: last of three words protected, nothing stored", &protected),
        Edge::new(false, "wrong turn 2: last of three words not in storage, nothing stored", &not_in_storage),
    ]
}

/// STNSM and STOSM refuse where STCTL and SSM report the exception as itself.
fn second_halfword_as_itself() -> Vec<Edge> {
    let top = 0x3FFE;
    let stnsm = Setup::stnsm([0x07, VIRTUAL_EC], 0xFC);
    let stosm = Setup::stosm([0x07, VIRTUAL_EC], 0x03);
    let protect = |setup: Setup| setup.psw_key(1).key(2, 0x28).key(4, 0x10);
    // 64K segments, 4K pages: the operand is mapped, the instruction's page 1 is not valid.
    let not_mapped = |setup: Setup| {
        let setup = setup.dat(0b10000).map(0x2000, 0x2000).map(0x1000, 0x1000);
        setup.halfword(0x3402, 0x0018)
    };
    vec![
        Edge::new(
            false,
            "wrong turn 3: second halfword not in storage, refuse",
            &stnsm.clone().instruction(top, top),
        ),
        Edge::new(false, "wrong turn 3: second halfword fetch-protected, refuse", &protect(stnsm.clone())),
        Edge::new(false, "wrong turn 3: second halfword page invalid, refuse", &not_mapped(stnsm)),
        Edge::new(
            false,
            "wrong turn 3: second halfword not in storage, refuse even with expanded",
            &stosm.clone().instruction(top, top).expanded().switched_on(),
        ),
        Edge::new(false, "wrong turn 3: second halfword fetch-protected, refuse", &protect(stosm.clone())),
        Edge::new(false, "wrong turn 3: second halfword page invalid, refuse", &not_mapped(stosm)),
        Edge::new(
            false,
            "beside wrong turn 3: second halfword not in storage, as itself",
            &Setup::stctl(5, 5).instruction(top, top),
        ),
        Edge::new(
            false,
            "beside wrong turn 3: second halfword not in storage, as itself",
            &Setup::ssm([0x04, VIRTUAL_EC], 0x07).instruction(top, top),
        ),
    ]
}

/// The operand is the second byte of the virtual PSW, or its first.
fn whole_halfword_written() -> Vec<Edge> {
    let stnsm = Setup::stnsm([0x07, VIRTUAL_EC], 0xFC);
    let stosm = Setup::stosm([0x04, VIRTUAL_BC], 0x83);
    let second_byte = VIRTUAL_PSW + 1;
    vec![
        Edge::new(
            false,
            "wrong turn 4: operand is second byte of virtual PSW",
            &stnsm.clone().operand(second_byte),
        ),
        Edge::new(
            false,
            "wrong turn 4: operand is second byte of virtual PSW",
            &stosm.clone().operand(second_byte),
        ),
        Edge::new(false, "operand is first byte of virtual PSW, new byte stays", &stnsm.operand(VIRTUAL_PSW)),
        Edge::new(false, "operand is first byte of virtual PSW, new byte stays", &stosm.operand(VIRTUAL_PSW)),
        Edge::new(
            false,
            "BC, operand is second byte of virtual PSW, only byte 0 stored",
            &Setup::ssm([0x04, 0x55], 0x00).operand(second_byte),
        ),
    ]
}
