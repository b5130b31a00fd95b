//! Logical accesses: low-address protection (stores), translation, storage bounds, protection, then the fetch.

use crate::address::add;
use crate::bits::word_bits;
use crate::ending::Exception;
use crate::guest::Guest;
use crate::machine::Machine;
use crate::references::{ReferenceKind, References};
use crate::translation::translate;

#[derive(Clone, Copy, PartialEq, Eq)]
enum Access {
    Fetch,
    Store,
}

/// Fetch the second halfword at the instruction address + 2.
#[inline]
pub fn fetch_second_halfword(
    machine: &mut Machine<impl References>,
    guest: &Guest,
) -> Result<u16, Exception> {
    let logical_address = add(guest.instruction_address(), 2);
    fetch(machine, guest, ReferenceKind::InstructionHalfword, logical_address).map(u16::from_be_bytes)
}

/// Fetch an operand byte at a logical address.
#[inline]
pub fn fetch_operand_byte(
    machine: &mut Machine<impl References>,
    guest: &Guest,
    logical: u32,
) -> Result<u8, Exception> {
    fetch(machine, guest, ReferenceKind::OperandByte, logical).map(u8::from_be_bytes)
}

/// Logical addresses below this are those that low-address protection is for.
const LOW_ADDRESSES: u32 = 512;

/// Test an item of N bytes at a logical address for store access; gives the real address. The test records what it
/// fetches from tables, and nothing in the blocks of the item.
///
/// Low-address protection (document 02, R-6) is tested here and nowhere else: before translation, so that no entry is
/// made for the item, and whatever the PSW key is. An operand word is on its boundary, so its first byte decides.
#[inline]
pub fn test_store<const N: usize>(
    machine: &mut Machine<impl References>,
    guest: &Guest,
    logical: u32,
) -> Result<u32, Exception> {
    if guest.low_address_protection() && logical < LOW_ADDRESSES {
        machine.walk_step = 9;
        return Err(Exception::Protection);
    }
    test::<N>(machine, guest, logical, Access::Store)
}

#[inline]
fn fetch<const N: usize>(
    machine: &mut Machine<impl References>,
    guest: &Guest,
    kind: ReferenceKind,
    logical: u32,
) -> Result<[u8; N], Exception> {
    let real = test::<N>(machine, guest, logical, Access::Fetch)?;
    machine.fetch(kind, real).ok_or(Exception::Addressing)
}

/// Segment entry, page entry (DAT on only), real address in storage, key.
#[inline]
fn test<const N: usize>(
    machine: &mut Machine<impl References>,
    guest: &Guest,
    logical: u32,
    access: Access,
) -> Result<u32, Exception> {
    let real = translate(machine, guest, logical)?;
    // A real address outside storage gives 5, and makes no entry.
    machine.walk_step = 7;
    if !machine.contains::<N>(real) {
        return Err(Exception::Addressing);
    }
    // Then protection; the key entry is made even when the PSW key is zero.
    machine.walk_step = 8;
    let key = machine.consult_key(real);
    if !access_permitted(guest.psw_key(), key, access) {
        return Err(Exception::Protection);
    }
    machine.walk_step = 0;
    Ok(real)
}

/// A store passes if the PSW key is zero or equals the access bits; a fetch passes also if the fetch bit is zero.
#[inline]
fn access_permitted(psw_key: u32, key: u8, access: Access) -> bool {
    let key_byte = u32::from(key) << 24;
    let access_bits = word_bits(key_byte, 0, 3);
    let fetch_bit = word_bits(key_byte, 4, 4);
    psw_key == 0 || psw_key == access_bits || (access == Access::Fetch && fetch_bit == 0)
}
