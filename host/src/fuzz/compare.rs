//! The same calls by the library and by the second program, each on an area of its own.
//!
//! After each call its numbers, its record, all its keys and the margins are compared, and all its storage if
//! that is small. To compare and clear 16 MiB for each call would take too long. In large storage those
//! places are compared which the call may change: what the image puts, and what the second program's list of
//! references says is stored. The areas are zero between lists; so after a group of calls all of each area is
//! looked at, and must be zero. If it isn't, or if a call differs, the group's calls are made again, with
//! everything compared after each of them, to find the first that differs.
//!
//! Why no write goes unseen that one side makes and the other doesn't: the areas then differ at its place,
//! until something is put there. An image's byte is put, and a store made, only after the areas were found to
//! agree at its place; and clearing comes after comparing. So the place differs until it is met, by the end
//! of the group at the latest. Only a second such write, which undoes the first, could hide it. Therefore
//! storage begins at another place of the area in each call, one of `STARTS` by chance: the second write
//! undoes the first with a chance of one in `STARTS` at most, and a fault that comes again and again is seen.
//! In small storage there is not even that chance.
//!
//! A call that agrees is then written down: see `trails`.

use second::generate::{Chain, Random, MOST_KEYS};
use second::{ReferenceKind, Request, StorageImage};

use super::area::{Area, STARTS};
use super::plan::{List, Plan};
use super::tally::Tally;
use super::trails::Trails;
use crate::sides::{self, Functions, Outcome};

/// Storage of at most this size is compared whole after each call.
const SMALL: usize = 0x2_0000;

/// Storage and keys of one side.
pub struct Ground {
    pub storage: Area,
    pub keys: Area,
}

pub struct Comparer {
    functions: Functions,
    pub library: Ground,
    pub counted: Ground,
    /// Where the second program makes its list of references, in large storage.
    listed: Ground,
    /// In large storage, the places that the present list's calls may have changed.
    touched: Vec<usize>,
    /// Compare everything after each call.
    whole: bool,
    pub trails: Trails,
    pub tally: Tally,
    /// What the last call gave: by the library, and by the second program.
    pub last: Option<(Outcome, Outcome)>,
}

/// What isn't as it should be.
pub enum Alarm {
    /// The call with this number differs.
    Differs(u64),
    /// An earlier call left something where it shouldn't.
    Left,
}

impl Comparer {
    pub fn new(plan: &Plan, functions: Functions, whole: bool) -> Comparer {
        let ground = || Ground { storage: Area::new(plan.most_bytes()), keys: Area::new(MOST_KEYS) };
        Comparer {
            functions,
            library: ground(),
            counted: ground(),
            listed: ground(),
            touched: Vec::new(),
            whole,
            trails: Trails::new(plan.seed, functions, whole),
            tally: Tally::default(),
            last: None,
        }
    }

    /// Before a group.
    pub fn begin(&mut self) {
        self.trails.begin();
    }

    /// Make the calls of a list. If it gives an alarm, this comparer is of no further use.
    pub fn list(&mut self, list: &List) -> Result<(), Alarm> {
        let Chain { image, requests } = &list.chain;
        self.put(image, list.first)?;
        for (index, request) in (list.first..).zip(requests) {
            if image.storage_size > SMALL {
                self.shift(index)?;
                self.foresee(image, request)?;
            }
            if !self.call(image, request, index) {
                return Err(Alarm::Differs(index));
            }
        }
        self.clear(image);
        if self.whole {
            return self.end();
        }
        Ok(())
    }

    /// After a group: everything is zero.
    pub fn end(&self) -> Result<(), Alarm> {
        let mut grounds = [&self.library, &self.counted, &self.listed].into_iter();
        agree(grounds.all(|ground| ground.storage.is_zero() && ground.keys.is_zero()))
    }

    /// Put the image for the call with this number.
    fn put(&mut self, image: &StorageImage, index: u64) -> Result<(), Alarm> {
        let start = start(index);
        self.grounds().for_each(|ground| ground.storage.start_at(start));
        self.touched.clear();
        for (&place, &value) in image.bytes.range(..image.storage_size as u32) {
            self.touch(place as usize)?;
            self.grounds().for_each(|ground| ground.storage.put(place as usize, value));
        }
        for (&number, &value) in image.keys.range(..image.key_count as u32) {
            let number = number as usize;
            agree(self.library.keys.byte(number) == self.counted.keys.byte(number))?;
            self.grounds().for_each(|ground| ground.keys.put(number, value));
        }
        Ok(())
    }

    /// Let storage begin elsewhere, for the call with this number.
    fn shift(&mut self, index: u64) -> Result<(), Alarm> {
        let places = std::mem::take(&mut self.touched);
        let values: Vec<Vec<u8>> = self.grounds().map(|ground| ground.storage.take(&places)).collect();
        let start = start(index);
        self.grounds().for_each(|ground| ground.storage.start_at(start));
        for &place in &places {
            self.touch(place)?;
        }
        for (ground, values) in self.grounds().zip(values) {
            places.iter().zip(values).for_each(|(&place, value)| ground.storage.put(place, value));
        }
        Ok(())
    }

    /// Learn where a call will store, from its list of references.
    fn foresee(&mut self, image: &StorageImage, request: &Request) -> Result<(), Alarm> {
        let Ground { storage, keys } = &mut self.listed;
        let answer = request.make(storage.lent(image.storage_size), keys.lent(image.key_count));
        for reference in answer.references.iter().filter(|one| one.kind == ReferenceKind::Store) {
            for &byte in &reference.bytes {
                self.touch(byte as usize)?;
            }
        }
        Ok(())
    }

    /// Something is about to be put at this place of storage.
    fn touch(&mut self, place: usize) -> Result<(), Alarm> {
        self.touched.push(place);
        agree(self.is_same_at(place))
    }

    fn is_same_at(&self, place: usize) -> bool {
        self.library.storage.byte(place) == self.counted.storage.byte(place)
    }

    fn grounds(&mut self) -> impl Iterator<Item = &mut Ground> {
        [&mut self.library, &mut self.counted, &mut self.listed].into_iter()
    }

    /// Make the call with this number on both sides, and write it down. Is all that is compared the same?
    fn call(&mut self, image: &StorageImage, request: &Request, index: u64) -> bool {
        let (size, count) = (image.storage_size, image.key_count);
        let Ground { storage, keys } = &mut self.library;
        let library = (self.functions.attempt)(request, storage.lent(size), keys.lent(count));
        let Ground { storage, keys } = &mut self.counted;
        let answer = sides::counted_answer(request, storage.lent(size), keys.lent(count));
        let counted = Outcome::of_counted(&answer);
        self.last = Some((library, counted));
        self.tally.add(library.answer);
        if library != counted || !self.is_same(size, count) {
            return false;
        }
        let written = self.trails.write_down(index, request, &library, &answer);
        written.inspect(|&ending| self.tally.add_writing(ending)).is_some()
    }

    fn is_same(&self, size: usize, count: usize) -> bool {
        let (library, counted) = (&self.library, &self.counted);
        if self.whole {
            return library.storage.all() == counted.storage.all()
                && library.keys.all() == counted.keys.all();
        }
        let storage = match size <= SMALL {
            true => library.storage.is_same(&counted.storage, size),
            false => {
                library.storage.has_same_margins(&counted.storage, size)
                    && self.touched.iter().all(|&place| self.is_same_at(place))
            }
        };
        storage && library.keys.is_same(&counted.keys, count)
    }

    fn clear(&mut self, image: &StorageImage) {
        for ground in [&mut self.library, &mut self.counted, &mut self.listed] {
            if image.storage_size <= SMALL {
                ground.storage.lent(image.storage_size).fill(0);
            } else {
                self.touched.iter().for_each(|&place| ground.storage.put(place, 0));
            }
            ground.keys.lent(image.key_count).fill(0);
        }
    }
}

/// Where storage begins in the area, for the call with this number.
fn start(index: u64) -> usize {
    Random::new(0x7374_6172_7400_0000, index).below(STARTS as u32) as usize
}

/// Between calls everything must be as it should; what isn't, an earlier call left.
fn agree(as_it_should: bool) -> Result<(), Alarm> {
    match as_it_should {
        true => Ok(()),
        false => Err(Alarm::Left),
    }
}
