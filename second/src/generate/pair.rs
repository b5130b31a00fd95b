//! Pairs of lists, each of which keeps to its own part of one storage: whole blocks with their keys. Both may read
//! blocks that are in neither part.

use super::draft::{Draft, Room};
use super::follow_up::follow_up;
use super::random::Random;
use super::twin::twin;
use super::{build, damage_but_sizes, draw_instruction, expanded, LRA_IN_LISTS};
use crate::attempt::Instruction;
use crate::call::Request;
use crate::pairs::{keep_to_their_parts, Pair};

/// A pair of lists with these lengths (each 2 or more), in storage of a proper size of 4 blocks or more, that
/// fulfils the premise of demand 3, in which both lists store and most calls complete: the first trial that is so.
pub fn generate_pair(seed: u64, index: u64, lengths: [usize; 2], size: usize) -> Pair {
    let mut trial = index.wrapping_mul(1_000_003);
    loop {
        let pair = draft_pair(Random::new(seed ^ 0x7061_6972_0000_0000, trial), lengths, size);
        if fit(&pair) {
            return pair;
        }
        trial = trial.wrapping_add(1);
    }
}

fn fit(pair: &Pair) -> bool {
    let alone = pair.alone();
    let completed = alone[0].completed() + alone[1].completed();
    let both_store = alone.iter().all(|run| !run.changed.bytes.is_empty());
    keep_to_their_parts(&alone) && both_store && 2 * completed > pair.order.len()
}

fn draft_pair(random: Random, lengths: [usize; 2], size: usize) -> Pair {
    let mut draft = Draft::new(random, size, size);
    let blocks = Blocks::draw(&mut draft);
    let psw_keys = [0, 1].map(|_| draft.random.pick(&[0, 0, 5, 9]));
    let mut lists = [Vec::new(), Vec::new()];
    // Calls are drafted for either list in turn, so that the two lie among each other.
    while (0..2).any(|list| lists[list].len() < lengths[list]) {
        let list = draft.random.below(2) as usize;
        if lists[list].len() == lengths[list] {
            continue;
        }
        let with_twin = blocks.neither.contains(&true) && draft.random.percent(40);
        draft.room = if with_twin { blocks.room_for_twins(list) } else { blocks.room(list) };
        let request = next_request(&mut draft, &lists[list], psw_keys[list]);
        lists[list].push(request);
        let other = 1 - list;
        if with_twin && lists[other].len() < lengths[other] {
            draft.room = blocks.room(other);
            lists[other].extend(twin(&mut draft));
        }
    }
    let order = draw_order(&mut draft.random, lengths);
    Pair { image: draft.image, lists, order }
}

/// Which blocks either list may store in, and which neither.
struct Blocks {
    own: [Vec<bool>; 2],
    neither: Vec<bool>,
}

impl Blocks {
    /// In some pairs each block belongs to a list, in most some belong to neither. Of the first four each list has
    /// one at least.
    fn draw(draft: &mut Draft) -> Blocks {
        let count = draft.image.key_count;
        let share_of_neither = draft.random.pick(&[0, 20, 20, 50]);
        let mut first_four =
            if share_of_neither == 0 { [0, 0, 1, 1] } else { [0, 1, 2, draft.random.below(3)] };
        first_four.rotate_left(draft.random.below(4) as usize);
        let mut owners = Vec::from(first_four);
        while owners.len() < count {
            let owner = if draft.random.percent(share_of_neither) { 2 } else { draft.random.below(2) };
            owners.push(owner);
        }
        let blocks_of = |owner: u32| owners.iter().map(|&one| one == owner).collect();
        Blocks { own: [blocks_of(0), blocks_of(1)], neither: blocks_of(2) }
    }

    /// A list stores in its own blocks, and reads from these and from blocks of neither.
    fn room(&self, list: usize) -> Room {
        let read = self.own[list].iter().zip(&self.neither).map(|(&own, &neither)| own || neither).collect();
        Room { read, stored: self.own[list].clone() }
    }

    /// It reads from blocks of neither only, so that a request of the other list can read the same.
    fn room_for_twins(&self, list: usize) -> Room {
        Room { read: self.neither.clone(), stored: self.own[list].clone() }
    }
}

/// The first request of a list is SSK or RRB; later ones are any, some repeated, some of the page that an earlier one
/// names, a few damaged or such that they come to "expanded".
fn next_request(draft: &mut Draft, earlier: &[Request], psw_key: u32) -> Request {
    if !earlier.is_empty() && draft.random.percent(20) {
        return draft.random.pick(earlier);
    }
    if draft.random.percent(10) {
        if let Some(request) = follow_up(draft, earlier) {
            return request;
        }
    }
    draft.start_request();
    draft.guest.psw_0_31 = draft.guest.psw_0_31 & 0xFF0F_FFFF | psw_key << 20;
    let set_a_key = [Instruction::SetStorageKey, Instruction::ResetReferenceBit];
    let instruction = if earlier.is_empty() {
        draft.random.pick(&set_a_key)
    } else {
        draw_instruction(&mut draft.random, LRA_IN_LISTS)
    };
    build::build(draft, instruction);
    match draft.random.below(100) {
        0..=9 => damage_but_sizes(draft),
        10..=15 => expanded::damage(draft),
        _ => {}
    }
    draft.request()
}

/// An order of both lists that goes from one to the other at least twice.
fn draw_order(random: &mut Random, lengths: [usize; 2]) -> Vec<usize> {
    loop {
        let mut left = lengths;
        let mut order = Vec::new();
        while left != [0, 0] {
            let list = usize::from(random.below((left[0] + left[1]) as u32) as usize >= left[0]);
            left[list] -= 1;
            order.push(list);
        }
        if order.windows(2).filter(|two| two[0] != two[1]).count() >= 2 {
            return order;
        }
    }
}
