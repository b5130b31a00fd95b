//! Random calls: built so that they complete, then in part damaged near the edges.

mod build;
mod build_key;
mod build_lra;
mod damage;
mod damage_fields;
mod damage_lra;
mod draft;
mod expanded;
mod follow_up;
mod item;
mod low_address;
mod pair;
mod random;
mod sizes;
mod tables;
mod twin;

use crate::attempt::Instruction;
use crate::call::{Call, Request, StorageImage};
use draft::Draft;

pub use pair::generate_pair;
pub use random::Random;
pub use sizes::{SizeBudget, LARGEST, LARGEST_LARGE, MIB, MOST_KEYS};

/// Share of the calls that are damaged, in percent.
const DAMAGED: u32 = 75;

/// Share of LRA among the single calls, in percent: it can end in more places than the others.
const LRA_IN_SINGLES: u32 = 9;

/// The same in lists and in pairs of lists, where calls that store are wanted most.
const LRA_IN_LISTS: u32 = 5;

/// Share of the calls of a list that follow an earlier one of the same page, in percent, if there is one.
const FOLLOWING: u32 = 6;

/// Calls on one storage: the first on the image, each later one on what the one before it left.
#[derive(Clone, Debug)]
pub struct Chain {
    pub image: StorageImage,
    pub requests: Vec<Request>,
}

/// The call with this index of a seed.
pub fn generate(seed: u64, index: u64) -> Call {
    damaged_in_part(undamaged(seed, index)).call()
}

/// The same call before any damage.
pub fn generate_undamaged(seed: u64, index: u64) -> Call {
    undamaged(seed, index).call()
}

/// A call in storage of this size, which damage makes no larger than `largest`.
pub fn generate_of_size(seed: u64, index: u64, size: usize, largest: usize) -> Call {
    let draft = Draft::new(Random::new(seed, index), size, largest);
    damaged_in_part(built(draft, LRA_IN_SINGLES)).call()
}

fn undamaged(seed: u64, index: u64) -> Draft {
    let mut random = Random::new(seed, index);
    let size = sizes::any_size(&mut random);
    built(Draft::new(random, size, LARGEST_LARGE), LRA_IN_SINGLES)
}

fn built(mut draft: Draft, percent_of_lra: u32) -> Draft {
    let instruction = draw_instruction(&mut draft.random, percent_of_lra);
    build::build(&mut draft, instruction);
    draft
}

/// STCTL, which has the most words to place and to test, about twice as often as another; of LRA so many percent.
fn draw_instruction(random: &mut Random, percent_of_lra: u32) -> Instruction {
    use Instruction::*;
    match random.below(43) {
        _ if random.percent(percent_of_lra) => LoadRealAddress,
        0..=13 => random.pick(&[SetStorageKey, InsertStorageKey, ResetReferenceBit]),
        14..=31 => random.pick(&[SetSystemMask, StoreThenAnd, StoreThenOr]),
        _ => StoreControl,
    }
}

fn damaged_in_part(mut draft: Draft) -> Draft {
    if draft.random.percent(DAMAGED) {
        damage::damage(&mut draft);
        if draft.random.percent(30) {
            damage::damage(&mut draft);
        }
    }
    draft
}

/// A list of calls on one storage of any size.
pub fn generate_chain(seed: u64, index: u64, length: usize) -> Chain {
    let mut random = chain_random(seed, index);
    let size = sizes::any_size(&mut random);
    chain(Draft::new(random, size, LARGEST_LARGE), length)
}

/// A list of calls on one storage of this size.
pub fn generate_chain_of_size(seed: u64, index: u64, length: usize, size: usize) -> Chain {
    chain(Draft::new(chain_random(seed, index), size, size), length)
}

fn chain_random(seed: u64, index: u64) -> Random {
    Random::new(seed ^ 0x6368_6169_6E00_0000, index)
}

/// Some calls of a list repeat an earlier request: half of these with bit 3 of control register 0 turned over, a
/// quarter with bit 6 of control register 6. Some are another key instruction of the page that an earlier one names.
fn chain(mut draft: Draft, length: usize) -> Chain {
    let mut requests: Vec<Request> = Vec::new();
    while requests.len() < length {
        if draft.random.percent(FOLLOWING) {
            if let Some(request) = follow_up::follow_up(&mut draft, &requests) {
                requests.push(request);
                continue;
            }
        }
        if !requests.is_empty() && draft.random.percent(25) {
            let mut repeated = draft.random.pick(&requests);
            match draft.random.below(4) {
                0..=1 => low_address::turn_over(&mut repeated.guest),
                2 => expanded::turn_over(&mut repeated.guest),
                _ => {}
            }
            requests.push(repeated);
            continue;
        }
        draft.start_request();
        draft = built(draft, LRA_IN_LISTS);
        match draft.random.below(100) {
            0..=17 => damage_but_sizes(&mut draft),
            18..=32 => expanded_or_other_damage(&mut draft),
            33..=50 => low_address::damage(&mut draft),
            _ => {}
        }
        requests.push(draft.request());
    }
    Chain { image: draft.image, requests }
}

/// A mask that does not pass, if the instruction has one.
fn expanded_or_other_damage(draft: &mut Draft) {
    use Instruction::*;
    match Instruction::of_first_halfword(draft.first_halfword) {
        Some(SetSystemMask | StoreThenAnd | StoreThenOr) => expanded::damage(draft),
        _ => damage_but_sizes(draft),
    }
}

/// Sizes belong to the whole list and stay as they are.
fn damage_but_sizes(draft: &mut Draft) {
    let sizes = (draft.image.storage_size, draft.image.key_count);
    damage::damage(draft);
    (draft.image.storage_size, draft.image.key_count) = sizes;
}
