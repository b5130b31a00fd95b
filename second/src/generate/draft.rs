//! A call being drafted: places in storage and what they hold.

use std::collections::BTreeSet;

use super::item::{Items, Place, Role};
use super::random::Random;
use crate::address::{add, bytes_of_item, subtract, ADDRESS_MASK, KEY_BLOCK};
use crate::call::{Call, Request, StorageImage};
use crate::guest::Guest;

/// Blocks by number in which items may be placed; empty for all blocks.
#[derive(Clone, Debug, Default)]
pub struct Room {
    /// For items that are only read.
    pub read: Vec<bool>,
    /// For items that are stored, and for the page whose key is set or read whole.
    pub stored: Vec<bool>,
}

#[derive(Clone, Debug)]
pub struct Draft {
    pub random: Random,
    pub image: StorageImage,
    pub guest: Guest,
    pub first_halfword: u16,
    pub expanded: bool,
    /// Items of the request being drafted.
    pub places: Vec<Place>,
    /// Damage makes storage no larger than this.
    pub largest: usize,
    pub room: Room,
    /// Start and length of what is taken.
    used: Vec<(u32, u32)>,
    /// Blocks from `FIRST_KEYS` on that have got a random key.
    keyed: BTreeSet<u32>,
}

/// The first keys are random from the start, a later one from when an item is in its block.
const FIRST_KEYS: u32 = 32;

impl Draft {
    /// Storage of some size with random keys, random record; nothing is set up yet.
    pub fn new(mut random: Random, size: usize, largest: usize) -> Draft {
        let mut image = StorageImage::new(size);
        for number in 0..(size as u32 / KEY_BLOCK).min(FIRST_KEYS) {
            image.put_key(number, random.byte());
        }
        Draft {
            guest: random_guest(&mut random),
            random,
            image,
            first_halfword: 0,
            expanded: false,
            places: Vec::new(),
            largest,
            room: Room::default(),
            used: Vec::new(),
            keyed: BTreeSet::new(),
        }
    }

    /// Another request on the same storage.
    pub fn start_request(&mut self) {
        self.guest = random_guest(&mut self.random);
        self.places.clear();
    }

    pub fn size(&self) -> u32 {
        self.image.storage_size as u32
    }

    pub fn request(&self) -> Request {
        Request { guest: self.guest, first_halfword: self.first_halfword, expanded: self.expanded }
    }

    pub fn call(self) -> Call {
        Call { request: self.request(), image: self.image }
    }

    /// The words that STCTL stores.
    pub fn store_control_items(&self) -> Items {
        let (r1, r3) = (self.first_halfword >> 4 & 15, self.first_halfword & 15);
        Items::words(1 + (u32::from(r3) + 16 - u32::from(r1)) % 16)
    }

    /// One of the registers that STCTL names.
    pub fn draw_named_register(&mut self) -> u32 {
        let from_r1 = self.random.below(self.store_control_items().count);
        (u32::from(self.first_halfword >> 4) + from_r1) % 16
    }

    /// An item; its block, or both of a word across a boundary, has a random key from now on.
    pub fn note(&mut self, role: Role, address: u32) {
        self.places.push(Place { role, address });
        self.draw_key(address);
        self.draw_key(add(address, 3));
    }

    /// A random key for the block of this byte, if it has got none yet.
    pub fn draw_key(&mut self, byte: u32) {
        let number = byte / KEY_BLOCK;
        if byte < self.size() && number >= FIRST_KEYS && self.keyed.insert(number) {
            let key = self.random.byte();
            self.image.put_key(number, key);
        }
    }

    pub fn find(&mut self, roles: &[Role]) -> Option<Place> {
        let found: Vec<Place> =
            self.places.iter().copied().filter(|place| roles.contains(&place.role)).collect();
        if found.is_empty() {
            None
        } else {
            Some(self.random.pick(&found))
        }
    }

    /// Is every byte of the item in storage, where items may be that are only read?
    pub fn contains(&self, address: u32, length: u32) -> bool {
        self.in_blocks(&self.room.read, address, length)
    }

    /// Is every byte of the item in storage, where items may be that are stored?
    pub fn contains_stored(&self, address: u32, length: u32) -> bool {
        self.in_blocks(&self.room.stored, address, length)
    }

    fn in_blocks(&self, blocks: &[bool], address: u32, length: u32) -> bool {
        let in_room = |byte: u32| blocks.is_empty() || blocks[(byte / KEY_BLOCK) as usize];
        bytes_of_item(address, length).all(|byte| byte < self.size() && in_room(byte))
    }

    /// In storage, for an item that is only read, and no byte is taken.
    pub fn free(&self, address: u32, length: u32) -> bool {
        self.contains(address, length) && !self.taken(address, length)
    }

    fn taken(&self, address: u32, length: u32) -> bool {
        let taken = |byte: u32| self.used.iter().any(|&(start, taken)| subtract(byte, start) < taken);
        bytes_of_item(address, length).any(taken)
    }

    pub fn take(&mut self, address: u32, length: u32) {
        self.used.push((address, length));
    }

    /// Take what may be stored in, if no byte of it is taken.
    pub fn take_stored(&mut self, address: u32, length: u32) -> bool {
        let free = self.contains_stored(address, length) && !self.taken(address, length);
        if free {
            self.take(address, length);
        }
        free
    }

    /// A free place, for an item that is only read, whose address leaves `residue` when divided by `alignment`;
    /// taken if none is free after some trials. It may go round the top of 16 MiB.
    pub fn allocate(&mut self, length: u32, alignment: u32, residue: u32) -> u32 {
        self.allocate_where(Draft::contains, length, alignment, residue)
    }

    /// The same for an item that is stored.
    pub fn allocate_stored(&mut self, length: u32, alignment: u32) -> u32 {
        self.allocate_where(Draft::contains_stored, length, alignment, 0)
    }

    fn allocate_where(
        &mut self,
        contains: fn(&Draft, u32, u32) -> bool,
        length: u32,
        alignment: u32,
        residue: u32,
    ) -> u32 {
        let mut address = 0;
        for _ in 0..60 {
            address = self.candidate(length, alignment, residue);
            if contains(self, address, length) && !self.taken(address, length) {
                break;
            }
        }
        self.take(address, length);
        address
    }

    /// A free place, for an item that is only read, whose word at this offset lies across a block boundary; none if
    /// storage is one block, or after some trials.
    pub fn allocate_across(&mut self, length: u32, offset: u32) -> Option<u32> {
        let trials = if self.size() > KEY_BLOCK { 20 } else { 0 };
        for _ in 0..trials {
            let address = subtract(self.boundary(), offset + 1 + self.random.below(3));
            if self.free(address, length) {
                self.take(address, length);
                return Some(address);
            }
        }
        None
    }

    /// Near the top, near a block boundary or across one, or anywhere.
    pub fn candidate(&mut self, length: u32, alignment: u32, residue: u32) -> u32 {
        let size = self.size();
        let round = size > ADDRESS_MASK && self.random.percent(if alignment > 4 { 10 } else { 50 });
        let across = alignment < 4 && length > 1 && size > KEY_BLOCK && self.random.percent(25);
        let start = match self.random.below(8) {
            _ if round => size - 1 - self.random.below(length),
            _ if across => self.boundary() - 1 - self.random.below(length - 1),
            0 => size.wrapping_sub(length),
            1 => size.wrapping_sub(self.random.below(length + 8)),
            2 => (self.random.below(size / KEY_BLOCK + 1) * KEY_BLOCK)
                .wrapping_sub(self.random.below(length + 1)),
            3 => self.random.below(64),
            _ => self.random.below(size),
        };
        let start = start & ADDRESS_MASK;
        add(start - start % alignment, residue)
    }

    /// A block boundary within storage of two blocks or more.
    fn boundary(&mut self) -> u32 {
        KEY_BLOCK * (1 + self.random.below(self.size() / KEY_BLOCK - 1))
    }

    /// An alignment of the manual's control blocks, or any.
    pub fn block_alignment(&mut self) -> u32 {
        let alignments = if self.size() > ADDRESS_MASK { [8, 4, 2, 1, 1, 1] } else { [8, 8, 8, 4, 2, 1] };
        self.random.pick(&alignments)
    }
}

/// Random registers and PSW; EC mode, problem state, control register 6 bits 0-3 1000.
fn random_guest(random: &mut Random) -> Guest {
    let mut general_registers = [0; 16];
    for register in &mut general_registers {
        *register = random.word();
    }
    let psw_key = if random.percent(40) { 0 } else { random.below(16) };
    let dat = if random.percent(65) { 0x0400_0000 } else { 0 };
    Guest {
        psw_0_31: (random.word() & 0xFB06_FFFF) | 0x0009_0000 | dat | psw_key << 20,
        psw_32_63: random.word() & 0xFF00_0000,
        general_registers,
        control_register_0: random.word(),
        control_register_1: random.word(),
        control_register_6: 0x8000_0000 | (random.word() & 0x0F00_0007),
    }
}
