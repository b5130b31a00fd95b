//! The references that an attempt makes: kept as a list, or only counted.

use crate::address::bytes_of_item;

/// What an entry of the list of references is for.
#[derive(Clone, Copy, Debug, PartialEq, Eq)]
pub enum ReferenceKind {
    ControlField,
    VirtualRegister,
    SegmentEntry,
    PageEntry,
    KeyConsulted,
    KeySet,
    InstructionHalfword,
    OperandByte,
    Store,
}

/// One entry of the list of references, with the bytes and the key that it names.
#[derive(Clone, Debug, PartialEq, Eq)]
pub struct Reference {
    pub kind: ReferenceKind,
    pub bytes: Vec<u32>,
    pub key: Option<u32>,
}

/// What becomes of the references. The rules are written once, over this trait; the compiler makes two programs
/// of them, `attempt` with the list and `attempt_counted` with the count alone.
pub trait References {
    /// One entry for an item in storage, which names each of its bytes.
    fn item(&mut self, kind: ReferenceKind, address: u32, length: u32);

    /// One entry for a key.
    fn key(&mut self, kind: ReferenceKind, number: u32);
}

/// The list.
impl References for Vec<Reference> {
    fn item(&mut self, kind: ReferenceKind, address: u32, length: u32) {
        self.push(Reference { kind, bytes: bytes_of_item(address, length).collect(), key: None });
    }

    fn key(&mut self, kind: ReferenceKind, number: u32) {
        self.push(Reference { kind, bytes: Vec::new(), key: Some(number) });
    }
}

/// The count, which is the list's length.
impl References for u32 {
    #[inline]
    fn item(&mut self, _kind: ReferenceKind, _address: u32, _length: u32) {
        *self += 1;
    }

    #[inline]
    fn key(&mut self, _kind: ReferenceKind, _number: u32) {
        *self += 1;
    }
}
