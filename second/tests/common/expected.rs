//! What an edge or another fixed call must give.
#![allow(dead_code)]

#[path = "set.rs"]
mod set;

pub use set::Set;

pub type Change = (u32, u8, u8);

pub struct Expected {
    pub name: (&'static str, &'static str),
    /// Ending number, code or step, logical address.
    pub ending: (u32, u32, u32),
    pub count: usize,
    pub bytes: Vec<Change>,
    pub keys: Vec<Change>,
    pub next: u32,
    /// What is set in the record besides the next address.
    pub set: Set,
}

impl Expected {
    /// ISK: register R1 afterwards.
    pub fn register(self, number: usize, contents: u32) -> Expected {
        Expected { set: Set::Register(number, contents), ..self }
    }

    /// LRA: register R1 and real PSW bits 18-19 afterwards.
    pub fn register_and_code(self, number: usize, contents: u32, code: u32) -> Expected {
        Expected { set: Set::RegisterAndCode(number, contents, code), ..self }
    }

    /// RRB: real PSW bits 18-19 afterwards.
    pub fn condition_code(self, code: u32) -> Expected {
        Expected { set: Set::ConditionCode(code), ..self }
    }
}

pub fn expect(
    name: (&'static str, &'static str),
    ending: (u32, u32, u32),
    count: usize,
    bytes: &[Change],
    keys: &[Change],
    next: u32,
) -> Expected {
    Expected { name, ending, count, bytes: bytes.to_vec(), keys: keys.to_vec(), next, set: Set::Nothing }
}

/// Words stored over zeros, none of whose bytes is zero.
pub fn words(list: &[(u32, u32)]) -> Vec<Change> {
    let bytes = |&(address, word): &(u32, u32)| {
        let [a, b, c, d] = word.to_be_bytes();
        [(address, 0, a), (address + 1, 0, b), (address + 2, 0, c), (address + 3, 0, d)]
    };
    list.iter().flat_map(bytes).collect()
}

pub const COMPLETED: (u32, u32, u32) = (0, 0, 0);
pub const REFUSED: (u32, u32, u32) = (1, 2, 0);
pub const PROTECTION: (u32, u32, u32) = (1, 4, 0);
pub const ADDRESSING: (u32, u32, u32) = (1, 5, 0);
pub const EXPANDED: (u32, u32, u32) = (2, 0, 0);
