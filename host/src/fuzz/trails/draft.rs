//! The buffers that are lent, and the writing calls that are made in them: as they should be, or damaged.

use second::generate::Random;
use second::trail::{RECORD_LENGTH, TRAILER_LENGTH};

/// The most bytes of a buffer.
pub const MOST_BYTES: usize = 5_000;

/// Bytes of buffers: none; those at which a trailer begins to fit, and it with one record, and with two.
const BORDERS: [usize; 7] = [0, 15, 16, 143, 144, 271, 272];

/// Bytes from the trailer on at which it begins to fit, and a record more.
const BORDERS_FROM_TRAILER: [usize; 5] = [0, 15, 16, 143, 144];

/// The least number whose distance is over 4,294,967,295.
const WRAPPED: u32 = 0x0200_0000;

/// Writing calls that are damaged, in percent.
const DAMAGED: u32 = 20;

/// How many bytes a new buffer has.
pub fn buffer_size(random: &mut Random) -> usize {
    let whole_records = RECORD_LENGTH * random.below((MOST_BYTES / RECORD_LENGTH) as u32) as usize;
    match random.below(10) {
        0..=5 => random.pick(&BORDERS),
        6 => whole_records + TRAILER_LENGTH - random.below(2) as usize,
        _ => random.below(MOST_BYTES as u32 + 1) as usize,
    }
}

/// How many writing calls a buffer of this size gets: about as many as fill it twice, or fewer.
pub fn calls_in(random: &mut Random, size: usize) -> u32 {
    1 + random.below(6 + 2 * (size / RECORD_LENGTH) as u32)
}

/// The trail before a writing call.
pub struct Trail {
    /// Bytes of the buffer.
    pub size: usize,
    /// The number that was handed back.
    pub held: u32,
    /// The number that was handed back before the trail was started.
    pub earlier: u32,
    /// The numbers of the trailer, if it is whole in the buffer.
    pub trailer: Option<[u32; 4]>,
}

/// A writing call.
#[derive(Clone, Copy)]
pub struct Draft {
    pub guest_number: u32,
    /// The number given.
    pub given: u32,
    /// So many bytes of the buffer are lent.
    pub lent: usize,
    /// A number of the trailer that is changed beforehand: its place in the buffer, and what it becomes.
    pub change: Option<(usize, u32)>,
}

impl Draft {
    pub fn new(random: &mut Random, trail: &Trail) -> Draft {
        let guest_number = if random.percent(50) { random.below(4) } else { random.word() };
        let draft = Draft { guest_number, given: trail.held, lent: trail.size, change: None };
        if !random.percent(DAMAGED) {
            return draft;
        }
        match (random.below(5), trail.trailer) {
            (0, _) => Draft { given: wrong_number(random, trail), ..draft },
            (1, _) => Draft { lent: part(random, trail), ..draft },
            (2, Some(trailer)) => draft.changing(trail, changed_byte(random, trailer)),
            (3, Some(_)) => draft.changing(trail, (2, u32::MAX - random.below(3))),
            (4, Some(_)) => draft.wrapped(random, trail),
            _ => draft,
        }
    }

    /// With the trailer's number of this place, 0 to 3, changed.
    fn changing(self, trail: &Trail, (number, value): (usize, u32)) -> Draft {
        Draft { change: Some((place(trail) + 4 * number, value)), ..self }
    }

    /// With a number, given and in the trailer, that has the trailer's distance modulo 2^32.
    fn wrapped(self, random: &mut Random, trail: &Trail) -> Draft {
        let given = wrapped_number(random, trail);
        Draft { given, ..self.changing(trail, (1, given)) }
    }
}

/// The trailer's place in the buffer.
pub fn place(trail: &Trail) -> usize {
    RECORD_LENGTH * trail.held as usize
}

fn wrong_number(random: &mut Random, trail: &Trail) -> u32 {
    let step = 1 + random.below(3);
    match random.below(6) {
        0 => trail.held.wrapping_add(step),
        1 => trail.held.wrapping_sub(step),
        2 => u32::MAX - random.below(3),
        3 => WRAPPED - 2 + random.below(4),
        4 => wrapped_number(random, trail),
        _ => trail.earlier,
    }
}

/// Its distance is that of the right number, modulo 2^32.
fn wrapped_number(random: &mut Random, trail: &Trail) -> u32 {
    trail.held.wrapping_add(WRAPPED * (1 + random.below(127)))
}

fn part(random: &mut Random, trail: &Trail) -> usize {
    let bytes = match random.below(3) {
        0 => random.below(trail.size as u32) as usize,
        1 => random.pick(&BORDERS),
        _ => place(trail) + random.pick(&BORDERS_FROM_TRAILER),
    };
    bytes.min(trail.size)
}

/// A number of the trailer with one bit changed, or with some bits of one byte.
fn changed_byte(random: &mut Random, trailer: [u32; 4]) -> (usize, u32) {
    let bits = if random.percent(50) { 1 << random.below(8) } else { 1 + random.below(255) };
    let number = random.below(4) as usize;
    (number, trailer[number] ^ bits << (8 * random.below(4)))
}
