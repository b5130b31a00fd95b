//! Every call is also written down, by the library and by the second program, each in a trail of its own.
//!
//! The two buffers have one size, lie at one place of their areas and hold the same bytes before a trail is
//! started in them. After each start and each writing call what comes back is compared, and every byte of the
//! areas. What is drawn for a call follows from the seed and the call's number, and the trail that it meets
//! from the calls before it in the group: so a group's writing calls can be made again.

mod draft;
mod report;
#[cfg(test)]
mod tests;

use second::generate::Random;
use second::trail::{self, Entry, TRAILER_LENGTH};
use second::{CountedAnswer, Request};

use self::draft::{Draft, Trail, MOST_BYTES};
use self::report::{Act, Differing};
use super::area::Area;
use crate::library::MadeCall;
use crate::record;
use crate::sides::{Functions, Outcome};
use crate::written::{WritingEnding, Written};

/// Bytes of the areas' margins: a record and its trailer have fewer.
const MARGIN: usize = 256;

/// The buffers may begin at any of so many places, and so be aligned in any way.
const STARTS: usize = 64;

pub struct Trails {
    seed: u64,
    functions: Functions,
    library: Area,
    second: Area,
    /// Bytes of the buffers.
    size: usize,
    /// Writing calls that are still to be made in them.
    calls_left: u32,
    /// The number handed back, but for refusals.
    held: u32,
    /// The same before the last start.
    earlier: u32,
    /// Keep what the buffers held, for a report.
    whole: bool,
    differing: Option<Differing>,
}

impl Trails {
    pub fn new(seed: u64, functions: Functions, whole: bool) -> Trails {
        let area = || Area::with_margin(MARGIN, STARTS + MOST_BYTES);
        Trails {
            seed,
            functions,
            library: area(),
            second: area(),
            size: 0,
            calls_left: 0,
            held: 0,
            earlier: 0,
            whole,
            differing: None,
        }
    }

    /// Before a group: nothing is left of another.
    pub fn begin(&mut self) {
        *self = Trails::new(self.seed, self.functions, self.whole);
    }

    /// Write down the call with this number, as each side made it. `None` if something differs.
    pub fn write_down(
        &mut self,
        index: u64,
        request: &Request,
        library: &Outcome,
        second: &CountedAnswer,
    ) -> Option<WritingEnding> {
        let mut random = Random::new(self.seed ^ 0x7472_6169_6C00_0000, index);
        self.prepare(&mut random)?;
        let draft = Draft::new(&mut random, &self.trail());
        let call = MadeCall {
            guest_number: draft.guest_number,
            before: record::of_guest(&request.guest),
            after: library.record,
            first_halfword: request.first_halfword,
            expanded: request.expanded,
            answer: library.answer.pack(),
        };
        self.write(draft, &call, &Entry::new(draft.guest_number, request, second))
    }

    /// The lines on what differs; none if nothing does.
    pub fn difference(&self) -> Vec<String> {
        let lines = |differing: &Differing| differing.lines(self.size, &self.library, &self.second);
        self.differing.as_ref().map(lines).unwrap_or_default()
    }

    /// Now and then take other buffers, or start the trails anew.
    fn prepare(&mut self, random: &mut Random) -> Option<()> {
        let is_new = self.calls_left == 0;
        if is_new {
            self.take_buffers(random);
        }
        self.calls_left -= 1;
        if random.percent(if is_new { 95 } else { 3 }) {
            self.start()?;
        }
        Some(())
    }

    /// They lie elsewhere; half of them are filled, the others hold what earlier trails left.
    fn take_buffers(&mut self, random: &mut Random) {
        self.size = draft::buffer_size(random);
        self.calls_left = draft::calls_in(random, self.size);
        let (start, byte) = (random.below(STARTS as u32) as usize, random.byte());
        let filled = random.percent(50);
        for area in [&mut self.library, &mut self.second] {
            area.start_at(start);
            if filled {
                area.lent(self.size).fill(byte);
            }
        }
    }

    fn start(&mut self) -> Option<()> {
        let start = self.functions.trail_start;
        let written = self.compare(Act::Start, self.size, start, trail::start)?;
        (self.earlier, self.held) = (self.held, written.held());
        Some(())
    }

    /// After a refusal the trail is as if the call had not been made, and goes on with the right number.
    fn write(&mut self, draft: Draft, call: &MadeCall, entry: &Entry) -> Option<WritingEnding> {
        let old = draft.change.map(|(place, number)| (place, self.put(place, number)));
        let write = self.functions.trail_write;
        let library = |buffer: &mut [u8]| write(buffer, draft.given, call);
        let second = |buffer: &mut [u8]| trail::write(buffer, draft.given, entry);
        let written = self.compare(Act::Write(draft), draft.lent, library, second)?;
        let ending = written.ending(draft.given);
        if !matches!(ending, WritingEnding::Refused(_)) {
            self.held = written.held();
        } else if let Some((place, number)) = old {
            self.put(place, number);
        }
        Some(ending)
    }

    /// The same by both sides, in so many bytes of the buffers. `None` if something differs.
    fn compare(
        &mut self,
        act: Act,
        lent: usize,
        library: impl FnOnce(&mut [u8]) -> Written,
        second: impl FnOnce(&mut [u8]) -> second::trail::Written,
    ) -> Option<Written> {
        let before = self.whole.then(|| self.second.lent(self.size).to_vec());
        let library = library(self.library.lent(lent));
        let second = Written::of_second(second(self.second.lent(lent)));
        if library == second && self.library.all() == self.second.all() {
            return Some(library);
        }
        self.differing = before.map(|before| Differing { act, before, library, second });
        None
    }

    fn trail(&self) -> Trail {
        let Trails { size, held, earlier, .. } = *self;
        let mut trail = Trail { size, held, earlier, trailer: None };
        let place = draft::place(&trail);
        if place + TRAILER_LENGTH <= size {
            trail.trailer = Some([0, 4, 8, 12].map(|offset| self.number(place + offset)));
        }
        trail
    }

    /// The number at this place of the buffers.
    fn number(&self, place: usize) -> u32 {
        u32::from_be_bytes([0, 1, 2, 3].map(|offset| self.second.byte(place + offset)))
    }

    /// Put a number at this place of both buffers; gives the old one.
    fn put(&mut self, place: usize, number: u32) -> u32 {
        let old = self.number(place);
        for (place, byte) in (place..).zip(number.to_be_bytes()) {
            self.library.put(place, byte);
            self.second.put(place, byte);
        }
        old
    }
}
