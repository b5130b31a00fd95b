//! Random calls written down in buffers of random length.

use std::collections::BTreeSet;

use second::generate::{generate, generate_chain, Random};
use second::trail::{start, write, Entry};
use second::{Answer, Request};

use super::{bytes, refused, trailer_at, went_well, word_at, UNUSED};

/// The record as 32 words, from the call itself.
fn record_words(sequence: u32, guest_number: u32, request: &Request, answer: &Answer) -> Vec<u32> {
    let Request { guest, first_halfword, expanded } = *request;
    let ending = answer.ending;
    let flag = if expanded { 0x100 } else { 0 };
    let mut words = vec![
        sequence,
        guest_number,
        u32::from(first_halfword) * 0x1_0000 + flag + ending.number(),
        ending.code_or_step() * 0x1_0000 + answer.count() as u32,
        answer.guest.psw_32_63 % 0x100_0000,
        ending.logical_address(),
        guest.psw_0_31,
        guest.psw_32_63,
    ];
    words.extend(guest.general_registers);
    words.extend([guest.control_register_0, guest.control_register_1, guest.control_register_6]);
    words.resize(32, 0);
    words
}

/// A buffer with a trail in it and what it must hold.
struct Watched {
    buffer: Vec<u8>,
    expected: Vec<u8>,
    held: u32,
    calls: u32,
}

impl Watched {
    /// Write a call down and compare every byte of the buffer.
    fn write(&mut self, guest_number: u32, request: &Request, answer: &Answer) {
        let entry = Entry::new(guest_number, request, &answer.counted());
        let written = write(&mut self.buffer, self.held, &entry);
        let place = 128 * self.held as usize;
        let turned_away = self.calls - self.held;
        if place + 128 + 16 <= self.buffer.len() {
            let record = record_words(self.held, guest_number, request, answer);
            self.held += 1;
            let trailer = [place as u32 + 128, self.held, turned_away, 1];
            self.expected[place..place + 144].copy_from_slice(&bytes(&[&record[..], &trailer].concat()));
        } else {
            let risen = (turned_away + 1).to_be_bytes();
            self.expected[place + 8..place + 12].copy_from_slice(&risen);
        }
        self.calls += 1;
        assert_eq!(written, went_well(self.held));
        assert!(self.buffer == self.expected);
        let [distance, held, turned_away, _] = trailer_at(&self.buffer, 128 * self.held as usize);
        assert_eq!((distance, held), (128 * self.held, self.held));
        assert_eq!(held + turned_away, self.calls);
    }

    /// Any other number is refused; with entries of calls no record reads as a trailer.
    fn try_another_number(&mut self, number: u32, entry: &Entry) {
        if number != self.held {
            assert_eq!(write(&mut self.buffer, number, entry), refused(20, number));
            assert!(self.buffer == self.expected);
        }
    }
}

fn started(length: usize) -> Watched {
    let mut buffer = vec![UNUSED; length];
    assert_eq!(start(&mut buffer), went_well(0));
    let mut expected = vec![UNUSED; length];
    expected[..16].copy_from_slice(&bytes(&[0, 0, 0, 1]));
    Watched { buffer, expected, held: 0, calls: 0 }
}

#[test]
fn every_call_is_held_or_turned_away() {
    let mut random = Random::new(31, 0);
    let (mut held, mut turned_away) = (0, 0);
    for index in 0..200 {
        let mut watched = started(16 + random.below(1_600) as usize);
        let chain = generate_chain(31, index, 12);
        let (mut storage, mut keys) = (chain.image.storage(), chain.image.key_bytes());
        for request in &chain.requests {
            let answer = request.make(&mut storage, &mut keys);
            let guest_number = random.below(2) * random.word();
            watched.write(guest_number, request, &answer);
            let entry = Entry::new(guest_number, request, &answer.counted());
            watched.try_another_number(random.below(16), &entry);
            watched.try_another_number(random.word(), &entry);
        }
        assert_eq!(watched.calls, 12);
        held += watched.held;
        turned_away += watched.calls - watched.held;
    }
    // About six of twelve have room on the average.
    assert!(held > 600 && turned_away > 600);
}

/// One trail over calls of every ending, with the last ones turned away.
#[test]
fn a_long_trail_of_every_ending() {
    let mut watched = started(900 * 128 + 16 + 127);
    let mut endings = BTreeSet::new();
    for index in 0..1_000u32 {
        let call = generate(32, u64::from(index));
        let answer = call.make();
        endings.insert(answer.ending.number());
        watched.write(index, &call.request, &answer);
    }
    assert_eq!((watched.held, watched.calls), (900, 1_000));
    assert!(endings.into_iter().eq([0, 1, 2, 3, 9, 10, 11, 12, 13]));
    for sequence in 0..900u32 {
        let place = 128 * sequence as usize;
        assert_eq!(
            (word_at(&watched.buffer, place), word_at(&watched.buffer, place + 4)),
            (sequence, sequence)
        );
    }
}

/// No buffer and no number makes a panic; no byte before the trailer pointed at is changed, and none after the new
/// one.
#[test]
fn any_bytes_and_any_number() {
    let mut random = Random::new(33, 0);
    let call = generate(33, 0);
    let entry = Entry::new(1, &call.request, &call.make().counted());
    // Refused by 20, by 21, turned away, gone in.
    let mut reached = [0; 4];
    for _ in 0..100_000 {
        let (mut buffer, number) = any_buffer(&mut random);
        let before = buffer.clone();
        let written = write(&mut buffer, number, &entry);
        if written.refusal != 0 {
            assert_eq!(written, refused(if before.len() < 16 { 21 } else { 20 }, number));
            assert!(buffer == before);
            reached[usize::from(written.refusal) - 20] += 1;
            continue;
        }
        let place = 128 * number as usize;
        let went_in = place + 144 <= before.len();
        assert_eq!(written.held, number + u32::from(went_in));
        let end = if went_in { place + 144 } else { place + 16 };
        assert!(buffer[..place] == before[..place] && buffer[end..] == before[end..]);
        reached[2 + usize::from(went_in)] += 1;
    }
    assert!(reached.iter().all(|&times| times > 1_000), "{reached:?}");
}

/// Bytes that are often those of a trailer, in half of the buffers with a whole one; and a number.
fn any_buffer(random: &mut Random) -> (Vec<u8>, u32) {
    let length = random.below(420) as usize;
    let mut buffer: Vec<u8> = (0..length).map(|_| random.pick(&[0, 0, 0, 1, 0x80])).collect();
    let number = match random.below(3) {
        0 => random.word(),
        1 => random.pick(&[0x01FF_FFFF, 0x0200_0000, 0x0200_0001, u32::MAX]),
        _ => random.below(4),
    };
    let place = number.wrapping_mul(128) as usize;
    if random.percent(50) && place + 16 <= length {
        buffer[place..place + 16].copy_from_slice(&bytes(&[place as u32, number, random.word(), 1]));
    }
    (buffer, number)
}
