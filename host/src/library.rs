//! The proved code, behind its three C entries.

use crate::record::Record;
use crate::written::Written;

#[cfg(test)]
mod first_halfwords;
#[cfg(test)]
mod tests;

extern "C" {
    fn vma_attempt(
        storage: *mut u8,
        storage_bytes: usize,
        keys: *mut u8,
        key_count: usize,
        guest: *mut Record,
        first_halfword: u16,
        expanded_installed: bool,
    ) -> u64;
}

/// One attempt by the library, on lent storage, keys and record. The result is `Answer::unpack`'s to read.
#[inline]
pub fn attempt(
    storage: &mut [u8],
    keys: &mut [u8],
    guest: &mut Record,
    first_halfword: u16,
    expanded: bool,
) -> u64 {
    // SAFETY: the declaration is that of include/vma.h. Each pointer comes from an exclusive borrow that
    // lasts until the call returns, and goes with the length of what is borrowed; so the three don't overlap.
    // The library touches nothing else, keeps no pointer and doesn't unwind; it is proved for every content
    // and every length, zero too.
    unsafe {
        vma_attempt(
            storage.as_mut_ptr(),
            storage.len(),
            keys.as_mut_ptr(),
            keys.len(),
            guest,
            first_halfword,
            expanded,
        )
    }
}

/// A call, once made, as it is to be written down in a trail.
#[derive(Clone, Copy, Debug)]
pub struct MadeCall {
    pub guest_number: u32,
    pub before: Record,
    pub after: Record,
    pub first_halfword: u16,
    pub expanded: bool,
    /// What `attempt` gave.
    pub answer: u64,
}

extern "C" {
    fn vma_trail_start(buffer: *mut u8, bytes: usize) -> u64;

    fn vma_trail_write(
        buffer: *mut u8,
        bytes: usize,
        held: u32,
        guest_number: u32,
        before: *const Record,
        after: *const Record,
        first_halfword: u16,
        expanded_installed: bool,
        answer: u64,
    ) -> u64;
}

/// Start a trail in a lent buffer.
pub fn trail_start(buffer: &mut [u8]) -> Written {
    // SAFETY: the declaration is that of include/vma.h. The pointer comes from an exclusive borrow that lasts
    // until the call returns, and goes with the length of what is borrowed. The library touches nothing else,
    // keeps no pointer and doesn't unwind; it is proved for every content and every length, zero too.
    Written::unpack(unsafe { vma_trail_start(buffer.as_mut_ptr(), buffer.len()) })
}

/// Write a call down in the trail of a lent buffer; `held` is the number that was handed back before.
pub fn trail_write(buffer: &mut [u8], held: u32, call: &MadeCall) -> Written {
    // SAFETY: the declaration is that of include/vma.h. The buffer's pointer comes from an exclusive borrow,
    // and goes with the length of what is borrowed; both records are borrowed too, and only read; all three
    // borrows last until the call returns, so the buffer overlaps neither record. The library touches nothing
    // else, keeps no pointer and doesn't unwind; it is proved for every content, number and length, zero too.
    let result = unsafe {
        vma_trail_write(
            buffer.as_mut_ptr(),
            buffer.len(),
            held,
            call.guest_number,
            &call.before,
            &call.after,
            call.first_halfword,
            call.expanded,
            call.answer,
        )
    };
    Written::unpack(result)
}
