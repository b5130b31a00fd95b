//! Attempts that complete, and complete again and again on what they left.

use std::hint::black_box;

use second::bench_calls::bench_call;
use second::{Call, Instruction, Request};

use super::{batch, Measured};
use crate::command::Failure;
use crate::library;
use crate::record;
use crate::sides;

/// A call on its storage.
pub struct Attempt {
    request: Request,
    storage: Vec<u8>,
    keys: Vec<u8>,
}

impl Attempt {
    pub fn new(title: &str, instruction: Instruction, dat: bool, size: usize) -> Result<Attempt, Failure> {
        let call = bench_call(instruction, dat, size);
        check(title, &call)?;
        Ok(Attempt { request: call.request, storage: call.image.storage(), keys: call.image.key_bytes() })
    }
}

/// The library changes the record in place. Word 1, with the instruction address, is restored before each call;
/// what ISK and LRA leave in a register, and RRB and LRA in the condition code, isn't looked at by the next call.
/// The plain function takes its record by reference, and hands another back. What goes in and what comes out is
/// hidden from the optimizer alike, by reference, which costs no copy. Neither is inlined here: the one is in
/// another language, the other in another crate.
impl Measured for Attempt {
    fn library_batch(&mut self, calls: u32) -> f64 {
        let Request { guest, first_halfword, expanded } = self.request;
        let mut record = record::of_guest(&guest);
        batch(calls, || {
            black_box(&mut record)[1] = guest.psw_32_63;
            let result = library::attempt(
                black_box(&mut self.storage),
                black_box(&mut self.keys),
                black_box(&mut record),
                black_box(first_halfword),
                black_box(expanded),
            );
            black_box(&result);
            black_box(&record);
        })
    }

    fn plain_batch(&mut self, calls: u32) -> f64 {
        let Request { guest, first_halfword, expanded } = self.request;
        batch(calls, || {
            let answer = second::attempt_counted(
                black_box(&mut self.storage),
                black_box(&mut self.keys),
                black_box(&guest),
                black_box(first_halfword),
                black_box(expanded),
            );
            black_box(&answer);
        })
    }
}

/// Both sides give the same, completion, and so again on what the call leaves.
fn check(title: &str, call: &Call) -> Result<(), Failure> {
    let mut library = sides::before(&call.image, &call.request);
    let mut plain = library.clone();
    for time in ["first", "second"] {
        let by_library = sides::library(&call.request, &mut library.storage, &mut library.keys);
        let by_plain = sides::counted(&call.request, &mut plain.storage, &mut plain.keys);
        let same = by_library == by_plain && library.storage == plain.storage && library.keys == plain.keys;
        if !same {
            return Err(Failure::Error(format!("{title}: the two differ in the {time} call")));
        }
        if !by_library.answer.completed() {
            let numbers = sides::numbers(by_library.answer, call.request.first_halfword);
            return Err(Failure::Error(format!("{title}: the {time} call doesn't complete: {numbers}")));
        }
    }
    Ok(())
}
