//! Writing calls, at the end of a trail.

use std::hint::black_box;

use second::bench_calls::bench_call;
use second::trail::{self, Entry, RECORD_LENGTH, TRAILER_LENGTH};
use second::{Call, CountedAnswer, Instruction, Request};

use super::{batch, Measured};
use crate::command::Failure;
use crate::library::{self, MadeCall};
use crate::record;
use crate::sides::{self, Outcome};
use crate::written::{WritingEnding, Written};

const GUEST_NUMBER: u32 = 7;

/// Records for which a trail has room.
#[derive(Clone, Copy)]
pub enum Room {
    One,
    None,
}

/// A call that was made, and a trail in which it is to be written down.
pub struct Writing {
    request: Request,
    answer: CountedAnswer,
    made: MadeCall,
    buffer: Vec<u8>,
    held: u32,
    trailer: [u8; TRAILER_LENGTH],
}

impl Writing {
    /// In a buffer of so many bytes: a multiple of 128, of which the trailer takes up the last record's place.
    pub fn new(title: &str, room: Room, size: usize) -> Result<Writing, Failure> {
        let (request, answer) = completed();
        let most = (size / RECORD_LENGTH - 1) as u32;
        let (held, expected) = match room {
            Room::One => (most - 1, WritingEnding::WentIn),
            Room::None => (most, WritingEnding::TurnedAway),
        };
        let made = made(&request, &answer);
        let trailer = trailer(held);
        let mut writing = Writing { request, answer, made, buffer: vec![0; size], held, trailer };
        restored(&mut writing.buffer, held, &trailer);
        writing.check(title, expected)?;
        Ok(writing)
    }

    /// Both sides give the same, and what is expected.
    fn check(&self, title: &str, expected: WritingEnding) -> Result<(), Failure> {
        let (mut library, mut plain) = (self.buffer.clone(), self.buffer.clone());
        let by_library = library::trail_write(&mut library, self.held, &self.made);
        let entry = Entry::new(GUEST_NUMBER, &self.request, &self.answer);
        let by_plain = Written::of_second(trail::write(&mut plain, self.held, &entry));
        if by_library != by_plain || library != plain {
            return Err(Failure::Error(format!("{title}: the two differ")));
        }
        if by_library.ending(self.held) != expected {
            return Err(Failure::Error(format!("{title}: {}", by_library.words())));
        }
        Ok(())
    }
}

/// The trailer is restored before each call, by both sides alike. The library takes the call as it was made; plain
/// Rust makes an entry of it, which the library does too.
impl Measured for Writing {
    fn library_batch(&mut self, calls: u32) -> f64 {
        let Writing { made, buffer, held, trailer, .. } = self;
        batch(calls, || {
            let buffer = restored(buffer, *held, trailer);
            let written = library::trail_write(black_box(buffer), black_box(*held), black_box(made));
            black_box(&written);
        })
    }

    fn plain_batch(&mut self, calls: u32) -> f64 {
        let Writing { request, answer, buffer, held, trailer, .. } = self;
        batch(calls, || {
            let buffer = restored(buffer, *held, trailer);
            let entry = Entry::new(black_box(GUEST_NUMBER), black_box(request), black_box(answer));
            let written = trail::write(black_box(buffer), black_box(*held), &entry);
            black_box(&written);
        })
    }
}

/// The buffer, with the trailer right after so many records.
fn restored<'a>(buffer: &'a mut [u8], held: u32, trailer: &[u8; TRAILER_LENGTH]) -> &'a mut [u8] {
    let place = held as usize * RECORD_LENGTH;
    buffer[place..place + TRAILER_LENGTH].copy_from_slice(trailer);
    buffer
}

/// Distance, records held, none turned away, version.
fn trailer(held: u32) -> [u8; TRAILER_LENGTH] {
    let mut bytes = [0; TRAILER_LENGTH];
    for (place, number) in bytes.chunks_exact_mut(4).zip([held * RECORD_LENGTH as u32, held, 0, 1]) {
        place.copy_from_slice(&number.to_be_bytes());
    }
    bytes
}

/// A call that completed, by the second program.
fn completed() -> (Request, CountedAnswer) {
    let Call { image, request } = bench_call(Instruction::SetSystemMask, false, 0x1_0000);
    let answer = sides::counted_answer(&request, &mut image.storage(), &mut image.key_bytes());
    (request, answer)
}

/// The same call, as the library takes it.
fn made(request: &Request, answer: &CountedAnswer) -> MadeCall {
    let Outcome { answer, record: after } = Outcome::of_counted(answer);
    MadeCall {
        guest_number: GUEST_NUMBER,
        before: record::of_guest(&request.guest),
        after,
        first_halfword: request.first_halfword,
        expanded: request.expanded,
        answer: answer.pack(),
    }
}
