//! Lent storage and keys, with what becomes of the references made to them, and the recording of accesses (document
//! 02, R-13): every entry that reads or stores an item is made in `fetch` or `store`, and these record it.
//!
//! The small functions are `inline`, as they are used from another crate too; nothing forces the compiler.

use crate::address::{add, KEY_BLOCK};
use crate::ending::{Ending, NotThere};
use crate::references::{ReferenceKind, References};

/// Reference bit (5) and change bit (6) of a key.
pub const KEY_REFERENCE: u8 = 0x04;
pub const KEY_CHANGE: u8 = 0x02;

/// Storage, keys, the references so far and the step that the attempt has reached.
///
/// Before any access storage has been found to have at most 2^24 bytes, so an item that is a slice of it does
/// not go round the top.
pub struct Machine<'a, R> {
    storage: &'a mut [u8],
    keys: &'a mut [u8],
    pub references: R,
    /// Step of the instruction; zero before the first.
    pub step: u8,
    /// Step of the translation walk in which an exception was found (7: real address not in storage, 8: protection
    /// by the key, 9: low-address protection, before the walk); zero if none. For reports only.
    pub walk_step: u8,
}

impl<'a, R: References> Machine<'a, R> {
    #[inline]
    pub fn new(storage: &'a mut [u8], keys: &'a mut [u8], references: R) -> Machine<'a, R> {
        Machine { storage, keys, references, step: 0, walk_step: 0 }
    }

    /// The numbers of bytes of storage and of keys.
    #[inline]
    pub fn sizes(&self) -> (usize, usize) {
        (self.storage.len(), self.keys.len())
    }

    /// Is every byte of the item of N bytes in storage?
    #[inline]
    pub fn contains<const N: usize>(&self, address: u32) -> bool {
        self.bytes::<N>(address).is_some()
    }

    /// Fetch the N bytes of an item at a real address; one entry is made, and the blocks' reference bits are set.
    /// An item of which any byte is not in storage makes no entry and records nothing: `None`.
    #[inline]
    pub fn fetch<const N: usize>(&mut self, kind: ReferenceKind, address: u32) -> Option<[u8; N]> {
        let bytes = self.bytes(address)?;
        self.references.item(kind, address, N as u32);
        self.record::<N>(address, KEY_REFERENCE);
        Some(bytes)
    }

    /// Fetch a control field or virtual register; a field not in storage gives ending 3 with the step number.
    #[inline]
    pub fn fetch_field<const N: usize>(
        &mut self,
        kind: ReferenceKind,
        address: u32,
    ) -> Result<[u8; N], Ending> {
        let step = self.step;
        self.fetch(kind, address).ok_or(Ending::NotInStorage(NotThere::Step(step)))
    }

    /// Store bytes at a real address that has been found to be in storage; one entry is made, and the blocks'
    /// reference and change bits are set.
    #[inline]
    pub fn store<const N: usize>(&mut self, address: u32, bytes: [u8; N]) {
        let start = address as usize;
        match self.storage.get_mut(start..start + N) {
            Some(item) => item.copy_from_slice(&bytes),
            None => store_one_by_one(self.storage, address, &bytes),
        }
        self.references.item(ReferenceKind::Store, address, N as u32);
        self.record::<N>(address, KEY_REFERENCE | KEY_CHANGE);
    }

    /// Set these bits in the key of every block that the item touches; its other bits stay. An item has at most
    /// four bytes, so no block lies between those of its first and its last byte.
    #[inline]
    fn record<const N: usize>(&mut self, address: u32, bits: u8) {
        let first = address / KEY_BLOCK;
        let last = add(address, N as u32 - 1) / KEY_BLOCK;
        self.record_block(first, bits);
        if last != first {
            self.record_block(last, bits);
        }
    }

    #[inline]
    fn record_block(&mut self, number: u32, bits: u8) {
        if let Some(key) = self.keys.get_mut(number as usize) {
            *key |= bits;
        }
    }

    /// Consult the key of the block with this real address; one entry is made. Key entries record nothing.
    #[inline]
    pub fn consult_key(&mut self, real_address: u32) -> u8 {
        let number = real_address / KEY_BLOCK;
        self.references.key(ReferenceKind::KeyConsulted, number);
        self.keys.get(number as usize).copied().unwrap_or(0)
    }

    /// Set the key of the block with this real address; one entry is made.
    #[inline]
    pub fn set_key(&mut self, real_address: u32, value: u8) {
        let number = real_address / KEY_BLOCK;
        self.references.key(ReferenceKind::KeySet, number);
        if let Some(key) = self.keys.get_mut(number as usize) {
            *key = value;
        }
    }

    /// The bytes of an item, if all of them are in storage.
    #[inline]
    fn bytes<const N: usize>(&self, address: u32) -> Option<[u8; N]> {
        let start = address as usize;
        match self.storage.get(start..start + N) {
            Some(item) => item.try_into().ok(),
            None => bytes_one_by_one(self.storage, address),
        }
    }
}

/// The bytes of an item that goes round the top, or is not in storage: each sum modulo 2^24.
#[cold]
fn bytes_one_by_one<const N: usize>(storage: &[u8], address: u32) -> Option<[u8; N]> {
    let mut bytes = [0; N];
    for (offset, byte) in (0..).zip(&mut bytes) {
        *byte = *storage.get(add(address, offset) as usize)?;
    }
    Some(bytes)
}

/// Store an item that goes round the top.
#[cold]
fn store_one_by_one(storage: &mut [u8], address: u32, bytes: &[u8]) {
    for (offset, &byte) in (0..).zip(bytes) {
        if let Some(place) = storage.get_mut(add(address, offset) as usize) {
            *place = byte;
        }
    }
}
