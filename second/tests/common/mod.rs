//! Running a set-up and checking what it gives.
#![allow(dead_code)]

pub mod recorded;
mod set;

use recorded::keys_after;
use second::call::{changes, Change};
use second::setup::Setup;
use second::{Answer, ReferenceKind};

pub use set::Set;

pub const COMPLETED: (u32, u32, u32) = (0, 0, 0);
pub const REFUSED: (u32, u32, u32) = (1, 2, 0);
pub const PROTECTION: (u32, u32, u32) = (1, 4, 0);
pub const ADDRESSING: (u32, u32, u32) = (1, 5, 0);
pub const SPECIFICATION: (u32, u32, u32) = (1, 18, 0);
pub const EXPANDED: (u32, u32, u32) = (2, 0, 0);

pub fn segment_translation(logical_address: u32) -> (u32, u32, u32) {
    (1, 16, logical_address)
}

pub fn page_translation(logical_address: u32) -> (u32, u32, u32) {
    (1, 17, logical_address)
}

/// Ending 3: the step, for ISK, RRB and LRA the place.
pub fn not_in_storage(step_or_place: u32) -> (u32, u32, u32) {
    (3, step_or_place, 0)
}

/// What a set-up gives.
pub struct Ran {
    pub answer: Answer,
    pub bytes: Vec<Change>,
    pub keys: Vec<Change>,
}

impl Ran {
    pub fn kinds(&self) -> Vec<ReferenceKind> {
        self.answer.references.iter().map(|reference| reference.kind).collect()
    }

    /// The bytes that an entry names.
    pub fn named_bytes(&self, entry: usize) -> &[u32] {
        &self.answer.references[entry].bytes
    }

    /// The key that an entry names.
    pub fn named_key(&self, entry: usize) -> Option<u32> {
        self.answer.references[entry].key
    }
}

pub fn run(setup: &Setup) -> Ran {
    let (storage_before, keys_before) = (setup.image.storage(), setup.image.key_bytes());
    let (mut storage, mut keys) = (storage_before.clone(), keys_before.clone());
    let answer = setup.request().make(&mut storage, &mut keys);
    Ran { answer, bytes: changes(&storage_before, &storage), keys: changes(&keys_before, &keys) }
}

/// Run and check ending, count, that only completion changes storage and record, and that the keys are as the list of
/// references says.
pub fn expect(setup: &Setup, ending: (u32, u32, u32), count: usize) -> Ran {
    expect_set(setup, ending, count, Set::Nothing)
}

/// The same; this, and the next address, is what completion sets in the record.
pub fn expect_set(setup: &Setup, ending: (u32, u32, u32), count: usize, set: Set) -> Ran {
    let ran = run(setup);
    let given = ran.answer.ending;
    assert_eq!((given.number(), given.code_or_step(), given.logical_address()), ending);
    assert_eq!(ran.answer.count(), count);
    let mut record = setup.guest;
    if ending.0 == 0 {
        let length = set::length(setup.first_halfword);
        let next = (setup.guest.psw_32_63 & 0x00FF_FFFF).wrapping_add(length) & 0x00FF_FFFF;
        record = set.in_record(record);
        record.psw_32_63 = (setup.guest.psw_32_63 & 0xFF00_0000) | next;
    } else {
        assert_eq!((ran.bytes.as_slice(), set), (&[][..], Set::Nothing));
    }
    assert_eq!(ran.answer.guest, record);
    let keys_before = setup.image.key_bytes();
    let keys = keys_after(&keys_before, &setup.request(), &ran.answer.references);
    assert_eq!(ran.keys, changes(&keys_before, &keys));
    ran
}

/// What a new mask gives without and with a pending interruption, where the expanded assist is installed and switched
/// on; with either or neither of these, "expanded" is a refusal (document 02, R-3).
pub fn expect_mask(
    setup: &Setup,
    quiet: (u32, u32, u32),
    pending: (u32, u32, u32),
    count: impl Fn((u32, u32, u32)) -> usize,
) {
    let installed = setup.clone().expanded();
    let both = installed.clone().switched_on();
    expect(&both, quiet, count(quiet));
    expect(&both.pending(), pending, count(pending));
    let refused = |ending: (u32, u32, u32)| if ending == EXPANDED { REFUSED } else { ending };
    for setup in [setup.clone(), installed, setup.clone().switched_on()] {
        expect(&setup, refused(quiet), count(quiet));
        expect(&setup.pending(), refused(pending), count(pending));
    }
}
