//! Which calls are made: all of them follow from the seed.

use std::ops::Range;

use second::generate::{
    generate, generate_chain, generate_chain_of_size, generate_of_size, Chain, LARGEST_LARGE, MOST_KEYS,
};
use second::StorageImage;

/// Calls of a batch: single calls, each on its own storage, or in every eighth batch a list on one storage.
pub const BATCH: u64 = 16;

/// Batches of a group: see `compare`.
const GROUP: u64 = 256;

/// Bytes of one key block.
pub const BLOCK: usize = 2_048;

pub struct Plan {
    pub seed: u64,
    pub calls: u64,
    /// Bounds the sizes of storage.
    pub largest: Option<usize>,
}

/// Calls on one storage, with the number of the first.
pub struct List {
    pub first: u64,
    pub chain: Chain,
}

impl List {
    /// The number of the last call.
    pub fn last(&self) -> u64 {
        self.first + self.chain.requests.len() as u64 - 1
    }
}

impl Plan {
    /// Number of groups.
    pub fn groups(&self) -> u64 {
        self.calls.div_ceil(BATCH * GROUP)
    }

    /// The numbers of a group's calls.
    pub fn calls_of(&self, group: u64) -> Range<u64> {
        let first = group * GROUP * BATCH;
        first..(first + GROUP * BATCH).min(self.calls)
    }

    /// The lists of a group, in order.
    pub fn lists(&self, group: u64) -> impl Iterator<Item = List> + '_ {
        let calls = self.calls_of(group);
        (calls.start / BATCH..calls.end.div_ceil(BATCH)).flat_map(|batch| self.batch(batch))
    }

    /// The most bytes of storage that a call has.
    pub fn most_bytes(&self) -> usize {
        self.largest.unwrap_or(LARGEST_LARGE).min(LARGEST_LARGE)
    }

    fn batch(&self, batch: u64) -> Box<dyn Iterator<Item = List> + '_> {
        let calls = batch * BATCH..((batch + 1) * BATCH).min(self.calls);
        if batch % 8 == 7 {
            let mut chain = self.chain(batch);
            chain.requests.truncate((calls.end - calls.start) as usize);
            Box::new(std::iter::once(List { first: calls.start, chain }))
        } else {
            Box::new(calls.map(|index| List { first: index, chain: self.single(index) }))
        }
    }

    fn single(&self, index: u64) -> Chain {
        let mut call = generate(self.seed, index);
        if call.image.storage_size > self.most_bytes() {
            call = generate_of_size(self.seed, index, self.largest_storage(), self.most_bytes());
        }
        Chain { image: self.bounded(call.image), requests: vec![call.request] }
    }

    fn chain(&self, batch: u64) -> Chain {
        let mut chain = generate_chain(self.seed, batch, BATCH as usize);
        if chain.image.storage_size > self.most_bytes() {
            chain = generate_chain_of_size(self.seed, batch, BATCH as usize, self.largest_storage());
        }
        Chain { image: self.bounded(chain.image), ..chain }
    }

    fn largest_storage(&self) -> usize {
        self.most_bytes() / BLOCK * BLOCK
    }

    /// Damage may still have made storage larger than was asked for.
    fn bounded(&self, mut image: StorageImage) -> StorageImage {
        image.storage_size = image.storage_size.min(self.most_bytes());
        image.key_count = image.key_count.min(MOST_KEYS);
        image
    }
}

#[cfg(test)]
mod tests {
    use super::*;

    fn calls(plan: &Plan) -> Vec<u64> {
        let lists = (0..plan.groups()).flat_map(|group| plan.lists(group));
        lists.flat_map(|list| list.first..list.first + list.chain.requests.len() as u64).collect()
    }

    #[test]
    fn every_call_has_its_number_once() {
        for number in [0, 1, 15, 16, 17, 112, 113, 127, 128, 4_095, 4_096, 4_099] {
            let plan = Plan { seed: 3, calls: number, largest: Some(BLOCK) };
            assert_eq!(calls(&plan), (0..number).collect::<Vec<u64>>());
        }
    }

    #[test]
    fn every_eighth_batch_is_a_list() {
        let plan = Plan { seed: 3, calls: 1_000, largest: None };
        let lists: Vec<u64> =
            plan.lists(0).filter(|list| list.chain.requests.len() > 1).map(|list| list.first).collect();
        assert_eq!(lists, [112, 240, 368, 496, 624, 752, 880]);
    }

    #[test]
    fn sizes_are_bounded() {
        for largest in [BLOCK, 5_000, 0x1_0000] {
            let plan = Plan { seed: 5, calls: 3_000, largest: Some(largest) };
            assert!(plan.lists(0).all(|list| list.chain.image.storage_size <= largest));
        }
    }
}
