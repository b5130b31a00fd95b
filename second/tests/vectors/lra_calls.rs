//! What the calls of LRA in a set are (document 02, R-9): worked out here from the call as the file gives it and the
//! list of references, with what must be loaded.

use std::collections::BTreeMap;

use second::{Answer, Reference, ReferenceKind};

use crate::key_calls::dat_format;
use crate::reader::ReadCall;

/// How often something was found, by name.
#[derive(Default)]
pub struct LraTally(BTreeMap<String, usize>);

/// Page and segment size.
#[derive(Clone, Copy)]
struct Sizes {
    pages_of_2k: bool,
    segments_of_1m: bool,
}

impl Sizes {
    fn words(self) -> String {
        let segments = if self.segments_of_1m { "1M" } else { "64K" };
        format!("{}, {segments}", self.page_words())
    }

    fn page_words(self) -> &'static str {
        if self.pages_of_2k {
            "2K"
        } else {
            "4K"
        }
    }

    fn segment_index(self, address: u32) -> u32 {
        address / if self.segments_of_1m { 0x10_0000 } else { 0x1_0000 }
    }

    fn page_index(self, address: u32) -> u32 {
        let in_segment = address % if self.segments_of_1m { 0x10_0000 } else { 0x1_0000 };
        in_segment / self.page_size()
    }

    fn page_size(self) -> u32 {
        if self.pages_of_2k {
            0x800
        } else {
            0x1000
        }
    }

    fn page_invalid(self, entry: u32) -> bool {
        entry & if self.pages_of_2k { 0x0004 } else { 0x0008 } != 0
    }

    fn page_format(self, entry: u32) -> bool {
        entry & if self.pages_of_2k { 0x0002 } else { 0x0006 } != 0
    }
}

/// A call that has fetched its second halfword.
struct Load<'a> {
    call: &'a ReadCall<'a>,
    micrseg: u32,
    register_1: u32,
    virtual_sizes: Sizes,
    base: usize,
    address: u32,
    /// The entries of both walks.
    walks: &'a [Reference],
}

/// The contents of what an entry names.
fn fetched(call: &ReadCall, entry: &Reference) -> u32 {
    entry.bytes.iter().fold(0, |value, &byte| value << 8 | u32::from(call.storage[byte as usize]))
}

fn index(call: &ReadCall) -> usize {
    usize::from(call.request.first_halfword & 15)
}

impl<'a> Load<'a> {
    /// MICRSEG, MICCREG and virtual control registers 0 and 1 are the first four entries.
    fn of(call: &'a ReadCall<'a>, answer: &'a Answer) -> Option<Load<'a>> {
        let references = &answer.references;
        let halfword = |entry: &Reference| entry.kind == ReferenceKind::InstructionHalfword;
        let place = references.iter().position(halfword)?;
        let word = |entry: usize| fetched(call, &references[entry]);
        let (halfword, format) = (word(place), word(2) >> 19 & 31);
        let virtual_sizes =
            Sizes { pages_of_2k: format & 0b01000 != 0, segments_of_1m: format & 0b00010 != 0 };
        let base = (halfword >> 12) as usize;
        let register = |number: usize| match number {
            0 => 0,
            _ => call.request.guest.general_registers[number] % 0x100_0000,
        };
        let address = (register(base) + register(index(call)) + halfword % 0x1000) % 0x100_0000;
        let walks = &references[place + 1..];
        Some(Load { call, micrseg: word(0), register_1: word(3), virtual_sizes, base, address, walks })
    }

    fn real_sizes(&self) -> Sizes {
        Sizes { pages_of_2k: self.micrseg & 2 != 0, segments_of_1m: self.micrseg & 1 != 0 }
    }

    fn entry(&self, number: usize) -> u32 {
        fetched(self.call, &self.walks[number])
    }

    /// Origin of the virtual segment table, and address of its entry.
    fn segment_entry(&self) -> (u32, u32) {
        let origin = self.register_1 & 0x00FF_FFC0;
        (origin, (origin + 4 * self.virtual_sizes.segment_index(self.address)) % 0x100_0000)
    }

    /// The same of the virtual page table, once the segment entry has been fetched.
    fn page_entry(&self) -> (u32, u32) {
        let origin = self.entry(2) & 0x00FF_FFF8;
        (origin, (origin + 2 * self.virtual_sizes.page_index(self.address)) % 0x100_0000)
    }

    /// Condition code in words, and what must be in register R1, by the entries that were fetched.
    fn loaded(&self) -> (&'static str, u32) {
        match self.walks.len() {
            0 => ("3 segment", self.segment_entry().1),
            3 if self.entry(2) & 1 == 1 => ("1", self.segment_entry().1),
            3 => ("3 page", self.page_entry().1),
            _ if self.virtual_sizes.page_invalid(self.entry(5)) => ("2", self.page_entry().1),
            _ => {
                let size = self.virtual_sizes.page_size();
                ("0", self.entry(5) * 0x100 / size * size + self.address % size)
            }
        }
    }

    /// Why a call was refused that has fetched this number of entries in its walks.
    fn refusal(&self) -> String {
        let walk = if self.walks.len() < 3 { "first walk" } else { "second walk" };
        match self.walks.len() {
            3 if self.entry(2) & 0x0F00_0000 != 0 => "virtual segment entry: format".into(),
            0 | 3 => format!("{walk}: segment length"),
            1 | 4 => match self.entry(self.walks.len() - 1) {
                word if word & 1 == 1 => format!("{walk}: segment invalid"),
                word if word & 0x0F00_0000 != 0 => format!("{walk}: segment format"),
                _ => format!("{walk}: page length"),
            },
            2 | 5 => {
                let (sizes, halfword) = (self.real_sizes(), self.entry(self.walks.len() - 1));
                match (sizes.page_invalid(halfword), sizes.page_format(halfword)) {
                    (true, _) => format!("{walk}: page invalid, {}", sizes.page_words()),
                    (_, true) => format!("{walk}: page format, {}", sizes.page_words()),
                    _ => format!("{walk}: virtual entry missing"),
                }
            }
            _ => format!("virtual page entry: format, {}", self.virtual_sizes.page_words()),
        }
    }
}

impl LraTally {
    fn found(&mut self, name: impl Into<String>) {
        *self.0.entry(name.into()).or_default() += 1;
    }

    pub fn times(&self, name: &str) -> usize {
        self.0.get(name).copied().unwrap_or(0)
    }

    pub fn add(&mut self, call: &ReadCall, answer: &Answer) {
        let (code, ending) = (call.request.first_halfword >> 8, answer.ending.number());
        if code != 0xB1 {
            return self.found(format!("code {code:02X}: {ending}"));
        }
        let carried = answer.ending.code_or_step();
        match (ending, Load::of(call, answer)) {
            (0, Some(load)) => self.add_completed(&load, answer),
            (1, Some(load)) => self.found(load.refusal()),
            (1, None) if carried != 2 => self.found(format!("{}: code {carried}", dat_format(call))),
            (1, None) if answer.count() == 0 => self.found("step 1"),
            (1, None) => {
                let bits = fetched(call, &answer.references[2]) >> 19 & 31;
                self.found(format!("virtual format {bits:05b}"));
            }
            (3, _) => self.found(format!("place {carried}")),
            _ => {}
        }
    }

    fn add_completed(&mut self, load: &Load, answer: &Answer) {
        let r1 = usize::from(load.call.request.first_halfword >> 4 & 15);
        let (base, index) = (load.base, index(load.call));
        let (old, new) = (load.call.request.guest.psw_0_31 >> 12 & 3, answer.guest.psw_0_31 >> 12 & 3);
        let (code, loaded) = load.loaded();
        assert_eq!((&code[..1], loaded), (new.to_string().as_str(), answer.guest.general_registers[r1]));
        let formats = format!("{}, real {}", load.virtual_sizes.words(), load.real_sizes().words());
        self.found(format!("code {code}: {formats}"));
        self.found(format!("condition code {old} to {new}"));
        self.found(format!("R1 {r1}"));
        self.found(format!("index {index}"));
        for (name, is_so) in [
            ("base 0, index 0", base == 0 && index == 0),
            ("base 0, index not", base == 0 && index != 0),
            ("index 0, base not", index == 0 && base != 0),
            ("base and index", base != 0 && index != 0 && base != index),
            ("base is index", base == index && base != 0),
            ("R1 is base", r1 == base && base != 0),
            ("R1 is index", r1 == index && index != 0),
        ] {
            if is_so {
                self.found(name);
            }
        }
        self.add_going_round(load, code);
    }

    /// Addresses of entries that are lower than their table's.
    fn add_going_round(&mut self, load: &Load, code: &str) {
        let below = |(origin, address): (u32, u32)| address < origin;
        if below(load.segment_entry()) && ["1", "3 segment"].contains(&code) {
            self.found("segment entry goes round, its address loaded");
        }
        if load.walks.len() >= 3 && load.entry(2) & 1 == 0 && below(load.page_entry()) {
            let way = if code == "0" { "" } else { ", its address loaded" };
            self.found(format!("page entry goes round{way}"));
        }
        for walk in load.walks.chunks(3) {
            let [segment, page, _] = walk else { panic!("three entries of a walk") };
            if below((load.micrseg & 0x00FF_FFC0, segment.bytes[0])) {
                self.found("real segment entry goes round");
            }
            if below((fetched(load.call, segment) & 0x00FF_FFF8, page.bytes[0])) {
                self.found("real page entry goes round");
            }
        }
        if below(load.segment_entry()) && load.walks.len() >= 3 {
            self.found("segment entry goes round");
        }
    }
}
