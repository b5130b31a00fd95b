//! The trail of document 02, R-1: each call, once made, is written down in a buffer that the caller lends.
//!
//! The trailer stands right after the last record. So the number of records held says where: 128 times that
//! number is the trailer's place in the buffer and its distance back to the first record.

mod entry;

pub use entry::{Entry, RECORD_LENGTH};

pub const TRAILER_LENGTH: usize = 16;

/// Refusal: the trailer that the number points at is not whole in the buffer, or is another one.
pub const OTHER_TRAILER: u8 = 20;
/// Refusal: the buffer is under 16 bytes.
pub const SHORT_BUFFER: u8 = 21;

const VERSION: u32 = 1;

/// What starting a trail or a writing call gives back. A call that is turned away is not refused.
#[derive(Clone, Copy, Debug, PartialEq, Eq)]
pub struct Written {
    /// Zero where there is none.
    pub refusal: u8,
    /// The number handed back, to be given with the next call: records held, or for a refusal the number given.
    pub held: u32,
}

/// Start a trail: an empty trailer at the front.
pub fn start(buffer: &mut [u8]) -> Written {
    let Some(front) = buffer.first_chunk_mut() else {
        return Written { refusal: SHORT_BUFFER, held: 0 };
    };
    *front = trailer(0, 0, 0);
    Written { refusal: 0, held: 0 }
}

/// Write one call down; `held` is the number that was handed back before.
pub fn write(buffer: &mut [u8], held: u32, entry: &Entry) -> Written {
    if buffer.len() < TRAILER_LENGTH {
        return Written { refusal: SHORT_BUFFER, held };
    }
    let Some((rest, turned_away)) = find_trailer(buffer, held) else {
        return Written { refusal: OTHER_TRAILER, held };
    };
    if let Some(more) = put_record(rest, held, turned_away, entry) {
        return Written { refusal: 0, held: more };
    }
    put_turned_away(rest, turned_away.saturating_add(1));
    Written { refusal: 0, held }
}

/// `None` over 4,294,967,295: nothing is taken modulo 2^32.
fn distance(held: u32) -> Option<u32> {
    held.checked_mul(RECORD_LENGTH as u32)
}

fn trailer(distance: u32, held: u32, turned_away: u32) -> [u8; TRAILER_LENGTH] {
    let mut bytes = [0; TRAILER_LENGTH];
    for (place, number) in bytes.chunks_exact_mut(4).zip([distance, held, turned_away, VERSION]) {
        place.copy_from_slice(&number.to_be_bytes());
    }
    bytes
}

/// The buffer from the trailer on that a number points at, and the turned-away number, which alone may be any.
fn find_trailer(buffer: &mut [u8], held: u32) -> Option<(&mut [u8], u32)> {
    let distance = distance(held)?;
    let rest = buffer.get_mut(usize::try_from(distance).ok()?..)?;
    let found: &[u8; TRAILER_LENGTH] = rest.first_chunk()?;
    let turned_away = u32::from_be_bytes([found[8], found[9], found[10], found[11]]);
    (*found == trailer(distance, held, turned_away)).then_some((rest, turned_away))
}

/// Put the record in the place of the trailer, which is at the front of `rest`, and the new trailer after it; gives
/// the new number of records held. `None`, and nothing is changed, if they do not fit or the distance is too great.
fn put_record(rest: &mut [u8], held: u32, turned_away: u32, entry: &Entry) -> Option<u32> {
    let more = held.checked_add(1)?;
    let new_distance = distance(more)?;
    let (record, after) = rest.split_first_chunk_mut()?;
    let trailer_place = after.first_chunk_mut()?;
    *record = entry.record(held);
    *trailer_place = trailer(new_distance, more, turned_away);
    Some(more)
}

/// Change the third number of the trailer at the front of `rest`.
fn put_turned_away(rest: &mut [u8], turned_away: u32) {
    if let Some(number) = rest.get_mut(8..12) {
        number.copy_from_slice(&turned_away.to_be_bytes());
    }
}
