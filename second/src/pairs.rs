//! Two lists of calls on one storage: what each consults and changes when it runs alone, and orders of both. Demand
//! 3 is that of document 01 as document 02, R-13 restates it: parts are whole blocks with their keys.

use std::collections::BTreeSet;

use crate::address::KEY_BLOCK;
use crate::attempt::{Answer, Instruction};
use crate::call::{Request, StorageImage};
use crate::references::ReferenceKind;

/// Two lists on one starting storage, and an order of both in which each keeps its own order.
#[derive(Clone, Debug, PartialEq, Eq)]
pub struct Pair {
    pub image: StorageImage,
    pub lists: [Vec<Request>; 2],
    /// Which list the next call is from: 0 or 1.
    pub order: Vec<usize>,
}

/// Byte addresses and key numbers.
#[derive(Clone, Debug, Default, PartialEq, Eq)]
pub struct Part {
    pub bytes: BTreeSet<u32>,
    pub keys: BTreeSet<u32>,
}

/// A list run alone: its answers, what it left, what it consulted and what it stored or set.
#[derive(Clone, Debug)]
pub struct Run {
    pub answers: Vec<Answer>,
    pub storage: Vec<u8>,
    pub keys: Vec<u8>,
    /// Every byte and key that an entry of the list of references names, stores included.
    pub consulted: Part,
    /// The bytes stored and the keys set, as store and key-set entries name them. The bits that accesses record in
    /// keys are not among them: those of stores are in the blocks of `part`, those of reads are left aside.
    pub changed: Part,
    /// The keys that ISK reads whole (document 02, R-4), with their reference bits. Those that SSK and RRB read are
    /// among the keys set.
    pub read_whole: BTreeSet<u32>,
}

impl Part {
    /// The blocks in which the bytes lie and to which the keys belong, by number.
    pub fn blocks(&self) -> BTreeSet<u32> {
        self.bytes.iter().map(|byte| byte / KEY_BLOCK).chain(self.keys.iter().copied()).collect()
    }
}

impl Run {
    /// Run requests in order, the first on the image, each later one on what the one before it left.
    pub fn of(image: &StorageImage, requests: impl IntoIterator<Item = Request>) -> Run {
        let mut run = Run {
            answers: Vec::new(),
            storage: image.storage(),
            keys: image.key_bytes(),
            consulted: Part::default(),
            changed: Part::default(),
            read_whole: BTreeSet::new(),
        };
        for request in requests {
            let answer = request.make(&mut run.storage, &mut run.keys);
            run.note(&request, &answer);
            run.answers.push(answer);
        }
        run
    }

    /// ISK makes no logical access: the key that it consults is the page's.
    fn note(&mut self, request: &Request, answer: &Answer) {
        let instruction = Instruction::of_first_halfword(request.first_halfword);
        for entry in &answer.references {
            self.consulted.bytes.extend(&entry.bytes);
            self.consulted.keys.extend(entry.key);
            match entry.kind {
                ReferenceKind::Store => self.changed.bytes.extend(&entry.bytes),
                ReferenceKind::KeySet => self.changed.keys.extend(entry.key),
                ReferenceKind::KeyConsulted if instruction == Some(Instruction::InsertStorageKey) => {
                    self.read_whole.extend(entry.key);
                }
                _ => {}
            }
        }
    }

    /// The smallest part that the list can have: whole blocks in which it stores, or whose key it sets or reads whole.
    /// "No call may read the reference bit of a block in neither part": SSK step 11 and RRB step 12 set the key that
    /// they have read; the key that ISK step 11 reads is added.
    pub fn part(&self) -> BTreeSet<u32> {
        &self.changed.blocks() | &self.read_whole
    }

    pub fn completed(&self) -> usize {
        self.answers.iter().filter(|answer| answer.ending.number() == 0).count()
    }
}

impl Pair {
    /// Each list alone.
    pub fn alone(&self) -> [Run; 2] {
        [0, 1].map(|list| Run::of(&self.image, self.lists[list].iter().copied()))
    }

    /// Both lists in the pair's order.
    pub fn interleaved(&self) -> Run {
        Run::of(&self.image, self.requests_in_order())
    }

    pub fn requests_in_order(&self) -> Vec<Request> {
        let mut next = [0, 0];
        let take = |&list: &usize| {
            next[list] += 1;
            self.lists[list][next[list] - 1]
        };
        self.order.iter().map(take).collect()
    }

    /// How often the order goes from one list to the other.
    pub fn switches(&self) -> usize {
        self.order.windows(2).filter(|two| two[0] != two[1]).count()
    }
}

/// The premise of demand 3: neither list, run alone, consults a byte or key of the other's part. If two lists have
/// parts of which this is true, it is true of their smallest ones.
pub fn keep_to_their_parts(alone: &[Run; 2]) -> bool {
    let [first, second] = alone;
    first.consulted.blocks().is_disjoint(&second.part())
        && second.consulted.blocks().is_disjoint(&first.part())
}
