//! The impostors' lists; changes are those of each call by itself, so that a later call changes no key that an earlier
//! one has recorded in. Blocks: 0 control fields, 1 tables of SSK, 2 instruction, 4 operand.

use crate::expected::*;

pub fn impostors() -> Vec<Expected> {
    let mut list = list_of_masks();
    list.extend(list_of_keys());
    list.extend(list_of_register_0());
    list.extend(list_of_one_page());
    list.extend(list_of_loads());
    list
}

fn list_of_masks() -> Vec<Expected> {
    vec![
        // 04 OR 03 is 07; old 04 at the operand.
        expect(
            ("STOSM", "list of three, call 1: old 04, OR 03"),
            COMPLETED,
            7,
            &[(0x600, 0x04, 0x07), (0x2000, 0x00, 0x04)],
            &[(0, 0x00, 0x06), (2, 0x00, 0x04), (4, 0x00, 0x06)],
            0x1004,
        ),
        // 07 AND FE is 06; old 07 at the operand, over 04.
        expect(
            ("STNSM", "list of three, call 2: old 07 from call 1, AND FE"),
            COMPLETED,
            7,
            &[(0x600, 0x07, 0x06), (0x2000, 0x04, 0x07)],
            &[],
            0x1004,
        ),
        expect(
            ("SSM", "list of three, call 3: new 07 from call 2's operand"),
            COMPLETED,
            9,
            &[(0x600, 0x06, 0x07)],
            &[],
            0x1004,
        ),
    ]
}

fn list_of_keys() -> Vec<Expected> {
    vec![
        // Old key 07: reference and change one, so 0C; bit 7 left as found, so 38 and 01.
        expect(
            ("SSK", "list of two, call 1: old key 07, R1 3F"),
            COMPLETED,
            8,
            &[(0xD18, 0x00, 0x0C), (0xD1A, 0x00, 0x3E)],
            &[(0, 0x00, 0x04), (1, 0x00, 0x06), (2, 0x07, 0x39)],
            0x1002,
        ),
        // Key 39 has neither bit: byte 0 keeps 0C. C6: key bits C0 with 01, swap byte C6.
        expect(
            ("SSK", "list of two, call 2: old key 39 from call 1, R1 C6"),
            COMPLETED,
            8,
            &[(0xD1A, 0x3E, 0xC6)],
            &[(2, 0x39, 0xC1)],
            0x1002,
        ),
    ]
}

/// The page is in frame 002, block 4; the swap word 50C3FDFF is at D18.
fn list_of_one_page() -> Vec<Expected> {
    let call = |name, count, bytes: &[Change], keys: &[Change], next| {
        expect(name, COMPLETED, count, bytes, keys, next)
    };
    let first_keys = [(0, 0x00, 0x04), (1, 0x00, 0x06), (2, 0x00, 0x04), (4, 0xFF, 0xFB)];
    let first = ("RRB", "list of four, call 1: key FF, virtual key FD");
    let second = ("RRB", "list of four, call 2: key FB and virtual key F9 from call 1");
    let third = ("SSK", "list of four, call 3: key FB from call 1, R1 C4");
    let fourth = ("ISK", "list of four, call 4: key C1 and virtual key C4 from call 3");
    vec![
        // FF: both bits, 50 OR 0C is 5C; the virtual reference bit goes.
        call(first, 10, &[(0xD18, 0x50, 0x5C), (0xD1A, 0xFD, 0xF9)], &first_keys, 0x1004).condition_code(3),
        // The change bit of the key alone is left.
        call(second, 10, &[], &[], 0x1004).condition_code(1),
        // C4: key C0 and bit 7 as found.
        call(third, 8, &[(0xD1A, 0xF9, 0xC4)], &[(4, 0xFB, 0xC1)], 0x1006),
        // C0, and the virtual reference bit; C1 has neither.
        call(fourth, 8, &[], &[], 0x1008).register(3, 0xABCD_EFC4),
    ]
}

/// LRA of 345E78: virtual segment entry 50056D08 at 2910 (64K; virtual address 123910), 40056D08 at 284C (1M).
fn list_of_loads() -> Vec<Expected> {
    let lra = |case, count, keys: &[Change], register, code| {
        expect(("LRA", case), COMPLETED, count, &[], keys, 0x1004).register_and_code(3, register, code)
    };
    let stctl = |case, count, bytes: &[Change], keys: &[Change]| {
        expect(("STCTL", case), COMPLETED, count, bytes, keys, 0x1004)
    };
    let read = [0, 1, 2, 3, 5].map(|block| (block, 0x00, 0x04));
    let over_entry = [(0x2910, 0x50, 0xA5), (0x2911, 0x05, 0xB5), (0x2912, 0x6D, 0xC5), (0x2913, 0x08, 0xD5)];
    // 00800000 becomes 00500000 (2K, 1M), and 03123840 becomes 00123840.
    let over_registers = [(0x501, 0x80, 0x50), (0x504, 0x03, 0x00)];
    let case_2 = "list of five, call 2: register 5 stored over the segment entry";
    let case_4 = "list of five, call 4: registers 8 and 9 stored over 0 and 1";
    vec![
        lra("list of five, call 1: code 0", 12, &read, 0x00AB_CE78, 0),
        stctl(case_2, 6, &over_entry, &[(5, 0x04, 0x06)]),
        lra("list of five, call 3: code 1 from call 2", 9, &[], 0x0012_3910, 1),
        stctl(case_4, 9, &over_registers, &[(0, 0x04, 0x06)]),
        lra("list of five, call 5: another format from call 4", 12, &[], 0x009A_B678, 0),
    ]
}

fn list_of_register_0() -> Vec<Expected> {
    vec![
        expect(
            ("SSM", "list of two, alone: virtual register 0 bit 1 zero"),
            COMPLETED,
            9,
            &[(0x600, 0x00, 0x55)],
            &[(0, 0x00, 0x06), (2, 0x00, 0x04), (4, 0x00, 0x04)],
            0x1004,
        ),
        // 1 + 2 + 1 + 1 + 1; 80000000 becomes E4B4C4D4.
        expect(
            ("STCTL", "list of two, call 1: register 4 stored over register 0"),
            COMPLETED,
            6,
            &[(0x500, 0x80, 0xE4), (0x501, 0x00, 0xB4), (0x502, 0x00, 0xC4), (0x503, 0x00, 0xD4)],
            &[(0, 0x00, 0x06), (2, 0x00, 0x04)],
            0x1004,
        ),
        // MICCREG, virtual register 0.
        expect(
            ("SSM", "list of two, call 2: virtual register 0 bit 1 one from call 1"),
            REFUSED,
            2,
            &[],
            &[],
            0x1000,
        ),
    ]
}
