//! Every bit of the system mask by itself: going to one, going to zero, staying one; EC and BC mode, pending or not.
//! Random masks change several bits at once, so that a wrong rule for one of them would seldom show. The expanded
//! assist is installed and switched on, so that "expanded" is told from "refuse"; the other ways are in `expanded`.

use super::FixedList;
use crate::setup::{Setup, VIRTUAL_BC, VIRTUAL_EC};

/// How the one bit that is not zero goes.
#[derive(Clone, Copy)]
enum Going {
    ToOne,
    ToZero,
    Staying,
}

impl Going {
    fn words(self) -> &'static str {
        match self {
            Going::ToOne => "to one",
            Going::ToZero => "to zero",
            Going::Staying => "stays one",
        }
    }

    /// Old and new byte 0.
    fn bytes(self, bit: u8) -> (u8, u8) {
        match self {
            Going::ToOne => (0, bit),
            Going::ToZero => (bit, 0),
            Going::Staying => (bit, bit),
        }
    }
}

/// The instruction with which a bit goes, from old and new byte: the operand is the new byte for SSM, and for
/// STNSM and STOSM the immediate is one that gives the new byte.
type Instruction = (fn([u8; 2], u8) -> Setup, &'static [Going]);

const INSTRUCTIONS: [Instruction; 3] = [
    (Setup::ssm, &[Going::ToOne, Going::ToZero, Going::Staying]),
    (Setup::stnsm, &[Going::ToZero, Going::Staying]),
    (Setup::stosm, &[Going::ToOne, Going::Staying]),
];

/// For each instruction: mode, pending, how the bit goes, bit 0 to bit 7.
pub fn cases() -> Vec<FixedList> {
    let mut cases = Vec::new();
    for (setup, goings) in INSTRUCTIONS {
        for (mode, second_byte) in [("EC", VIRTUAL_EC), ("BC", VIRTUAL_BC)] {
            for pending in [false, true] {
                for &going in goings {
                    cases.extend((0..8).map(|bit| {
                        let (old, new) = going.bytes(0x80 >> bit);
                        let mut setup = setup([old, second_byte], new).expanded().switched_on();
                        if pending {
                            setup = setup.pending();
                        }
                        let pending_words = if pending { "pending" } else { "not pending" };
                        let case = format!("mask: {mode}, {pending_words}, bit {bit} {}", going.words());
                        FixedList::one(&case, &setup, &[])
                    }));
                }
            }
        }
    }
    cases
}
