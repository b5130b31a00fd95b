//! Calls of the stored set that come to "expanded", or to SSM's refusal in BC mode (document 02, R-3). That a call
//! comes there is worked out here from the call as the file gives it and the list of references.

use std::collections::BTreeMap;

use second::generate::generate;
use second::{Answer, Call, Reference, ReferenceKind};

use crate::reader::ReadCall;
use crate::stored_set_read;

/// How often a place was come to, by name.
#[derive(Default)]
pub struct ExpandedTally(BTreeMap<String, usize>);

/// What the last test of the mask has before it.
struct Masks {
    old: u8,
    new: u8,
    ec_mode: bool,
    pending: bool,
}

/// Where a call comes to, if its mask does not pass.
#[derive(Clone, Copy, PartialEq, Eq)]
enum Place {
    Expanded(&'static str),
    RefusedInBcMode,
}

/// If the virtual PSW was fetched, which comes right after MICVPSW; gives the number of entries up to it too.
fn masks(call: &ReadCall, references: &[Reference]) -> Option<(usize, Masks)> {
    let byte = |address: u32| call.storage[address as usize];
    let is_virtual_psw =
        |entry: &Reference| entry.kind == ReferenceKind::ControlField && entry.bytes.len() == 2;
    let place = references.iter().position(is_virtual_psw)?;
    let [byte_0, byte_1] = references[place].bytes[..] else { panic!("a halfword has two bytes") };
    let immediate = call.request.first_halfword as u8;
    let old = byte(byte_0);
    let new = match call.request.first_halfword >> 8 {
        0x80 => {
            let fetched = |entry: &&Reference| entry.kind == ReferenceKind::OperandByte;
            byte(references.iter().find(fetched).expect("the operand comes before").bytes[0])
        }
        0xAC => old & immediate,
        0xAD => old | immediate,
        _ => return None,
    };
    let pending = byte(references[place - 1].bytes[0]) & 0x80 != 0;
    Some((place + 1, Masks { old, new, ec_mode: byte(byte_1) & 0x08 != 0, pending }))
}

/// Document 01: SSM step 9, STNSM and STOSM step 4.
fn place(operation_code: u16, masks: &Masks) -> Option<Place> {
    let Masks { old, new, ec_mode, pending } = *masks;
    let (to_one, to_zero) = (new & !old, old & !new);
    let expanded = |name, ends: bool| ends.then_some(Place::Expanded(name));
    match (operation_code, ec_mode) {
        (0x80, true) => {
            let changed = (to_one | to_zero) & 0x44 != 0;
            expanded("SSM", changed || new & 0xB8 != 0 || pending && to_one & 0x03 != 0)
        }
        (0x80, false) => (pending && to_one != 0).then_some(Place::RefusedInBcMode),
        (0xAC, true) => expanded("STNSM", to_zero & 0x44 != 0),
        (0xAD, true) => expanded("STOSM in EC mode", to_one & 0xFC != 0 || pending && to_one != 0),
        (0xAD, false) => expanded("STOSM in BC mode", pending && to_one != 0),
        _ => None,
    }
}

impl ExpandedTally {
    pub fn add(&mut self, call: &ReadCall, answer: &Answer) {
        let given = (answer.ending.number(), answer.ending.code_or_step());
        let come = masks(call, &answer.references).and_then(|(entries, masks)| {
            place(call.request.first_halfword >> 8, &masks).map(|place| (entries, place))
        });
        let Some((entries, place)) = come else {
            assert_ne!(given.0, 2);
            return;
        };
        let installed = call.request.expanded;
        let bit_6 = call.request.guest.control_register_6 & 0x0200_0000 != 0;
        let (name, ending) = match place {
            Place::Expanded(name) if installed && bit_6 => (name, (2, 0)),
            Place::Expanded(name) => (name, (1, 2)),
            Place::RefusedInBcMode => ("SSM in BC mode", (1, 2)),
        };
        assert_eq!((given, answer.count()), (ending, entries));
        *self.0.entry(way(name, installed, bit_6)).or_default() += 1;
    }

    fn times(&self, name: &str) -> usize {
        self.0.get(name).copied().unwrap_or(0)
    }
}

fn way(name: &str, installed: bool, bit_6: bool) -> String {
    let installed = if installed { "installed" } else { "not installed" };
    let bit_6 = if bit_6 { "one" } else { "zero" };
    format!("{name}, {installed}, bit 6 {bit_6}")
}

fn check_every_way(tally: &ExpandedTally, least: [(&str, usize); 5]) {
    for (name, least) in least {
        for (installed, bit_6) in [(true, true), (true, false), (false, true), (false, false)] {
            let name = way(name, installed, bit_6);
            assert!(tally.times(&name) >= least, "{name}: {}", tally.times(&name));
        }
    }
}

#[test]
fn the_stored_set_has_the_flag_and_bit_6_both_ways() {
    check_every_way(
        &stored_set_read().expanded,
        [
            ("SSM", 20),
            ("STNSM", 20),
            ("STOSM in EC mode", 15),
            ("STOSM in BC mode", 5),
            ("SSM in BC mode", 5),
        ],
    );
}

#[test]
fn random_calls_have_the_flag_and_bit_6_both_ways() {
    let mut tally = ExpandedTally::default();
    for index in 0..12_000 {
        let Call { image, request } = generate(20_260_402, index);
        let (storage, keys) = (image.storage(), image.key_bytes());
        let answer = request.make(&mut storage.clone(), &mut keys.clone());
        tally.add(&ReadCall { storage: &storage, keys: &keys, request, storage_number: 1 }, &answer);
    }
    check_every_way(
        &tally,
        [
            ("SSM", 15),
            ("STNSM", 15),
            ("STOSM in EC mode", 15),
            ("STOSM in BC mode", 5),
            ("SSM in BC mode", 5),
        ],
    );
}
