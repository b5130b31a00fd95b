//! Bad calls in every combination, so that each of the endings 10, 11, 12, 13 and 9 is given before the others.

use super::FixedList;
use crate::setup::{Setup, VIRTUAL_EC};

/// What is wrong, and how; in the order in which it is tested.
type Trouble = (&'static str, fn(&mut Setup));

const TROUBLES: [Trouble; 6] = [
    ("storage", |setup| setup.image.storage_size = 0x4001),
    ("keys", |setup| setup.image.key_count = 7),
    ("odd address", |setup| setup.guest.psw_32_63 |= 1),
    ("code", |setup| setup.first_halfword = 0x47FC),
    ("PSW bit 12", |setup| setup.guest.psw_0_31 &= !0x0008_0000),
    ("PSW bit 15", |setup| setup.guest.psw_0_31 &= !0x0001_0000),
];

/// All 64 combinations; with none the call completes.
pub fn cases() -> Vec<FixedList> {
    (0..1 << TROUBLES.len())
        .map(|combination: usize| {
            let mut setup = Setup::stnsm([0x07, VIRTUAL_EC], 0xFC);
            let mut names = Vec::new();
            for (number, (name, put)) in TROUBLES.iter().enumerate() {
                if combination >> number & 1 == 1 {
                    put(&mut setup);
                    names.push(*name);
                }
            }
            let wrong = if names.is_empty() { "nothing".into() } else { names.join(", ") };
            FixedList::one(&format!("wrong: {wrong}"), &setup, &[])
        })
        .collect()
}
