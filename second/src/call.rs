//! A call as a plain value: an image of storage and keys, and a request made on it.

use std::collections::BTreeMap;

use crate::address::add;
use crate::attempt::{attempt, Answer};
use crate::guest::Guest;

/// Sizes, and the bytes and keys that are not zero.
#[derive(Clone, Debug, Default, PartialEq, Eq)]
pub struct StorageImage {
    pub storage_size: usize,
    pub key_count: usize,
    pub bytes: BTreeMap<u32, u8>,
    pub keys: BTreeMap<u32, u8>,
}

/// What a call takes besides storage and keys.
#[derive(Clone, Copy, Debug, PartialEq, Eq)]
pub struct Request {
    pub guest: Guest,
    pub first_halfword: u16,
    /// Whether the expanded assist is installed.
    pub expanded: bool,
}

/// One call.
#[derive(Clone, Debug, PartialEq, Eq)]
pub struct Call {
    pub image: StorageImage,
    pub request: Request,
}

/// A changed byte or key: its address or number, old and new value.
pub type Change = (u32, u8, u8);

impl StorageImage {
    /// All zero, with the right number of keys.
    pub fn new(storage_size: usize) -> StorageImage {
        StorageImage { storage_size, key_count: storage_size / 2048, ..StorageImage::default() }
    }

    pub fn storage(&self) -> Vec<u8> {
        materialize(self.storage_size, &self.bytes)
    }

    pub fn key_bytes(&self) -> Vec<u8> {
        materialize(self.key_count, &self.keys)
    }

    pub fn byte(&self, address: u32) -> u8 {
        self.bytes.get(&address).copied().unwrap_or(0)
    }

    pub fn key(&self, number: u32) -> u8 {
        self.keys.get(&number).copied().unwrap_or(0)
    }

    pub fn put_key(&mut self, number: u32, value: u8) {
        put(&mut self.keys, number, value);
    }

    /// Put bytes at an address, each sum modulo 2^24.
    pub fn put(&mut self, address: u32, values: &[u8]) {
        for (offset, &value) in (0u32..).zip(values) {
            put(&mut self.bytes, add(address, offset), value);
        }
    }

    pub fn put_word(&mut self, address: u32, value: u32) {
        self.put(address, &value.to_be_bytes());
    }

    pub fn put_halfword(&mut self, address: u32, value: u16) {
        self.put(address, &value.to_be_bytes());
    }

    pub fn word(&self, address: u32) -> u32 {
        (0..4).fold(0, |value, offset| (value << 8) | u32::from(self.byte(add(address, offset))))
    }
}

impl Request {
    /// Make the call on storage and keys.
    pub fn make(&self, storage: &mut [u8], keys: &mut [u8]) -> Answer {
        attempt(storage, keys, &self.guest, self.first_halfword, self.expanded)
    }
}

impl Call {
    /// Make the call on a fresh copy of its image.
    pub fn make(&self) -> Answer {
        self.request.make(&mut self.image.storage(), &mut self.image.key_bytes())
    }
}

/// The places at which two equally long slices differ.
pub fn changes(before: &[u8], after: &[u8]) -> Vec<Change> {
    if before == after {
        return Vec::new();
    }
    let differ = |(number, (&old, &new))| (old != new).then_some((number, old, new));
    (0u32..).zip(before.iter().zip(after)).filter_map(differ).collect()
}

fn put(map: &mut BTreeMap<u32, u8>, place: u32, value: u8) {
    if value == 0 {
        map.remove(&place);
    } else {
        map.insert(place, value);
    }
}

fn materialize(size: usize, values: &BTreeMap<u32, u8>) -> Vec<u8> {
    let mut bytes = vec![0; size];
    for (&place, &value) in values {
        if let Some(byte) = bytes.get_mut(place as usize) {
            *byte = value;
        }
    }
    bytes
}
