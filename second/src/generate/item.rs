//! Items in storage of a call being drafted.

use crate::address::add;

/// What an item in storage is, so that it can be damaged.
#[derive(Clone, Copy, Debug, PartialEq, Eq)]
pub enum Role {
    Micrseg,
    Miccreg,
    Micvpsw,
    VirtualRegister,
    VirtualPsw,
    SecondHalfword,
    Operand,
    /// Entries for DAT.
    SegmentEntry,
    PageEntry,
    /// Entries of the real tables of SSK, ISK and RRB, and of LRA's first walk.
    RealSegmentEntry,
    RealPageEntry,
    /// Those of LRA's second walk, in part the same.
    SecondRealSegmentEntry,
    SecondRealPageEntry,
    /// Entries of the virtual tables of LRA.
    VirtualSegmentEntry,
    VirtualPageEntry,
    SwapAddress,
    SwapWord,
}

/// An item at a real address.
#[derive(Clone, Copy, Debug)]
pub struct Place {
    pub role: Role,
    pub address: u32,
}

/// Items of an operand, one after the other, each of `length` bytes: STCTL's words, or one byte.
#[derive(Clone, Copy)]
pub struct Items {
    pub count: u32,
    pub length: u32,
}

impl Items {
    pub const BYTE: Items = Items { count: 1, length: 1 };

    pub fn words(count: u32) -> Items {
        Items { count, length: 4 }
    }

    /// The logical address of each, from that of the first.
    pub fn addresses(self, start: u32) -> impl Iterator<Item = u32> {
        (0..self.count).map(move |item| add(start, self.length * item))
    }
}
