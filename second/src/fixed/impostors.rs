//! Lists for the impostors, above all for one that performs a list's first call and only pretends later.

use super::FixedList;
use crate::setup::{Setup, VIRTUAL_BC, VIRTUAL_EC, VIRTUAL_PSW};

pub fn lists() -> Vec<FixedList> {
    let mut lists = vec![three_masks(), two_keys()];
    lists.extend(refused_then_completed());
    lists.push(four_of_one_page());
    lists.push(three_loads());
    lists
}

/// STOSM sets bits 6 and 7, then STNSM clears bit 7, on one virtual PSW; SSM puts a third value.
fn three_masks() -> FixedList {
    let first = Setup::stosm([0x04, VIRTUAL_EC], 0x03);
    let second = Setup::stnsm([0x04, VIRTUAL_EC], 0xFE);
    // The third call's operand byte is what the second call stored at 002000.
    let third = Setup::ssm([0x04, VIRTUAL_EC], 0x00);
    FixedList::several(
        &first,
        &[
            ("list of three, call 1: old 04, OR 03", &first),
            ("list of three, call 2: old 07 from call 1, AND FE", &second),
            ("list of three, call 3: new 07 from call 2's operand", &third),
        ],
    )
}

/// SSK twice on one page: the second finds the key that the first set.
fn two_keys() -> FixedList {
    let first = Setup::ssk().key(2, 0x07);
    let mut second = first.clone();
    second.guest.general_registers[3] = 0x0000_00C6;
    FixedList::several(
        &first,
        &[
            ("list of two, call 1: old key 07, R1 3F", &first),
            ("list of two, call 2: old key 39 from call 1, R1 C6", &second),
        ],
    )
}

/// RRB twice on one page, which then has neither reference bit; SSK puts another virtual key, and ISK finds it.
fn four_of_one_page() -> FixedList {
    // The page is in frame 002, in EC mode, for all of them; R1 is C4 for SSK.
    let first = Setup::rrb().key(4, 0xFF).halfword(VIRTUAL_PSW, u16::from(VIRTUAL_EC));
    let mut set = Setup::ssk().register(3, 0x0000_00C4);
    let mut insert = Setup::isk(VIRTUAL_EC);
    set.guest.psw_32_63 = 0x1004;
    insert.guest.psw_32_63 = 0x1006;
    FixedList::several(
        &first,
        &[
            ("list of four, call 1: key FF, virtual key FD", &first),
            ("list of four, call 2: key FB and virtual key F9 from call 1", &first),
            ("list of four, call 3: key FB from call 1, R1 C4", &set),
            ("list of four, call 4: key C1 and virtual key C4 from call 3", &insert),
        ],
    )
}

/// LRA before and after two stores of STCTL: over the virtual segment entry, then over virtual control registers 0 and
/// 1.
fn three_loads() -> FixedList {
    let load = Setup::lra();
    // Registers 5 (A5B5C5D5, bit 31 one), and 8 and 9.
    let over_entry = Setup::stctl(5, 5).operand(0x2910);
    let over_registers = Setup::stctl(8, 9).operand(0x500);
    let image_of = load.clone().word(0x520, 0x0050_0000).word(0x524, 0x0012_3840);
    FixedList::several(
        &image_of,
        &[
            ("list of five, call 1: code 0", &load),
            ("list of five, call 2: register 5 stored over the segment entry", &over_entry),
            ("list of five, call 3: code 1 from call 2", &load),
            ("list of five, call 4: registers 8 and 9 stored over 0 and 1", &over_registers),
            ("list of five, call 5: another format from call 4", &load),
        ],
    )
}

/// STCTL stores over virtual register 0, so that SSM, which completes alone, is refused.
fn refused_then_completed() -> Vec<FixedList> {
    // Virtual register 4 is E4B4C4D4 (bit 1 one); it is stored over virtual register 0.
    let ssm = Setup::ssm([0x00, VIRTUAL_BC], 0x55).word(0x510, 0xE4B4_C4D4);
    let stctl = Setup::stctl(4, 4).operand(0x500);
    let alone = FixedList::several(&ssm, &[("list of two, alone: virtual register 0 bit 1 zero", &ssm)]);
    let both = FixedList::several(
        &ssm,
        &[
            ("list of two, call 1: register 4 stored over register 0", &stctl),
            ("list of two, call 2: virtual register 0 bit 1 one from call 1", &ssm),
        ],
    );
    vec![alone, both]
}
