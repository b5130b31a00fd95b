//! Operand stores of the stored set at and near the logical addresses 0 to 511 (document 02, R-6). Addresses, the bit
//! and what must follow are worked out here from the call as the file gives it and the list of references.

use std::collections::BTreeMap;

use second::{Answer, Reference, ReferenceKind, Request};

use crate::reader::ReadCall;
use crate::stored_set_read;

/// How often something was found, by name.
#[derive(Default)]
pub struct LowAddressTally(BTreeMap<String, usize>);

/// The store test of a call that got so far.
struct StoreTest<'a> {
    /// Logical addresses of the words, or of the byte.
    addresses: Vec<u32>,
    /// The entries from the test on.
    entries: &'a [Reference],
}

fn mnemonic(request: &Request) -> Option<&'static str> {
    match request.first_halfword >> 8 {
        0xB6 => Some("STCTL"),
        0xAC => Some("STNSM"),
        0xAD => Some("STOSM"),
        _ => None,
    }
}

fn bit_3(request: &Request) -> bool {
    request.guest.control_register_0 & 0x1000_0000 != 0
}

/// From the second halfword, if it was fetched.
fn operand(call: &ReadCall, answer: &Answer) -> Option<(usize, u32)> {
    let fetched = |entry: &Reference| entry.kind == ReferenceKind::InstructionHalfword;
    let place = answer.references.iter().position(fetched)?;
    let [left, right] = answer.references[place].bytes[..] else { panic!("a halfword has two bytes") };
    let (left, right) = (call.storage[left as usize], call.storage[right as usize]);
    let base = match left >> 4 {
        0 => 0,
        number => call.request.guest.general_registers[usize::from(number)],
    };
    let displacement = u32::from(left & 15) * 256 + u32::from(right);
    Some((place, base.wrapping_add(displacement) % 0x100_0000))
}

fn store_test<'a>(call: &ReadCall, answer: &'a Answer) -> Option<StoreTest<'a>> {
    mnemonic(&call.request)?;
    let (halfword, first) = operand(call, answer)?;
    let rest = &answer.references[halfword + 1..];
    if call.request.first_halfword >> 8 != 0xB6 {
        return Some(StoreTest { addresses: vec![first], entries: rest });
    }
    let (r1, r3) = (call.request.first_halfword >> 4 & 15, call.request.first_halfword & 15);
    let number = if r3 >= r1 { r3 - r1 + 1 } else { r3 + 17 - r1 };
    let fetched = rest.iter().filter(|entry| entry.kind == ReferenceKind::VirtualRegister).count();
    let addresses = (0..u32::from(number)).map(|word| (first + 4 * word) % 0x100_0000).collect();
    (first % 4 == 0 && fetched == usize::from(number))
        .then(|| StoreTest { addresses, entries: &rest[fetched..] })
}

/// Where the operand is, if it is near the low addresses.
fn place_words(addresses: &[u32]) -> Option<&'static str> {
    let (first, low) = (addresses[0], addresses.iter().filter(|&&address| address < 512).count());
    match low {
        0 => (first < 520).then_some("just above"),
        _ if low == addresses.len() => Some("low"),
        _ if first < 512 => Some("across 512"),
        _ => Some("round the top"),
    }
}

fn dat_on(call: &ReadCall) -> bool {
    call.request.guest.psw_0_31 & 0x0400_0000 != 0
}

/// Segment entry, page entry (DAT on only), key.
fn entries_of_word(call: &ReadCall) -> usize {
    if dat_on(call) {
        3
    } else {
        1
    }
}

/// With bit 3 one the first word at a low address ends the call, unless one before it does; it makes no entry.
fn check_protected(call: &ReadCall, answer: &Answer, test: &StoreTest) {
    let Some(passed) = test.addresses.iter().position(|&address| address < 512) else {
        return;
    };
    let entries = passed * entries_of_word(call);
    let ending = (answer.ending.number(), answer.ending.code_or_step());
    assert!(ending.0 == 1 && test.entries.len() <= entries);
    // Fewer entries: a word before it was not mapped or not in storage.
    assert!(ending.1 == 4 || test.entries.len() < entries);
    assert!(test.entries.iter().all(|entry| entry.kind != ReferenceKind::Store));
}

impl LowAddressTally {
    fn found(&mut self, name: impl Into<String>) {
        *self.0.entry(name.into()).or_default() += 1;
    }

    fn times(&self, name: &str) -> usize {
        self.0.get(name).copied().unwrap_or(0)
    }

    pub fn add(&mut self, call: &ReadCall, answer: &Answer) {
        if let Some(test) = store_test(call, answer) {
            self.add_store_test(call, answer, &test);
        }
        if bit_3(&call.request) && answer.ending.number() == 0 {
            self.add_not_affected(call, answer);
        }
    }

    fn add_store_test(&mut self, call: &ReadCall, answer: &Answer, test: &StoreTest) {
        let ending = (answer.ending.number(), answer.ending.code_or_step());
        let way = if bit_3(&call.request) {
            check_protected(call, answer, test);
            "one"
        } else {
            "zero"
        };
        let result = match ending {
            (0, _) => "stored",
            (1, 4) => "protected",
            _ => "other",
        };
        if let (Some(mnemonic), Some(place)) = (mnemonic(&call.request), place_words(&test.addresses)) {
            let dat = if dat_on(call) { "on" } else { "off" };
            self.found(format!("{mnemonic}, DAT {dat}, {place}, bit 3 {way}: {result}"));
            self.found(format!("from {}, bit 3 {way}: {result}", test.addresses[0]));
        }
        if bit_3(&call.request) && test.addresses[0] < 512 {
            self.found(format!("protected before {}", otherwise(call)));
        }
    }

    /// Fetches of operands, and stores of control fields, at low addresses in a call that completed.
    fn add_not_affected(&mut self, call: &ReadCall, answer: &Answer) {
        let low = |entry: &&Reference| entry.bytes.first().is_some_and(|&byte| byte < 512);
        let fetches_operand = |entry: &Reference| entry.kind == ReferenceKind::OperandByte;
        if answer.references.iter().filter(low).any(fetches_operand) {
            self.found("operand byte fetched");
        }
        // The last store of SSM, STNSM, STOSM, SSK and RRB is that of a control field.
        let last = answer.references.last().filter(low).map(|entry| entry.kind);
        if call.request.first_halfword >> 8 != 0xB6 && last == Some(ReferenceKind::Store) {
            self.found(format!(
                "control field stored, operation code {:02X}",
                call.request.first_halfword >> 8
            ));
        }
    }
}

/// The interruption code that the call gives with bit 3 zero; 0 if it then completes.
fn otherwise(call: &ReadCall) -> u32 {
    let mut request = call.request;
    request.guest.control_register_0 &= !0x1000_0000;
    let answer = request.make(&mut call.storage.to_vec(), &mut call.keys.to_vec());
    assert!(answer.ending.number() <= 1);
    answer.ending.code_or_step()
}

/// Refused at a word that goes round to a low address, after the words below the top passed.
pub fn refused_round_the_top(call: &ReadCall, answer: &Answer) -> bool {
    let ended = (answer.ending.number(), answer.ending.code_or_step()) == (1, 4);
    let round = |test: StoreTest| {
        let passed = test.addresses.iter().take_while(|&&address| address >= 512).count();
        place_words(&test.addresses) == Some("round the top")
            && test.entries.len() == passed * entries_of_word(call)
    };
    ended && bit_3(&call.request) && store_test(call, answer).is_some_and(round)
}

#[test]
fn the_stored_set_stores_near_the_low_addresses_with_the_bit_both_ways() {
    let tally = &stored_set_read().low_addresses;
    for mnemonic in ["STCTL", "STNSM", "STOSM"] {
        for dat in ["off", "on"] {
            for (rest, least) in [
                ("low, bit 3 zero: stored", 20),
                ("low, bit 3 one: protected", 15),
                ("just above, bit 3 zero: stored", 5),
                ("just above, bit 3 one: stored", 5),
            ] {
                let name = format!("{mnemonic}, DAT {dat}, {rest}");
                assert!(tally.times(&name) > least, "{name}: {}", tally.times(&name));
            }
            let never = format!("{mnemonic}, DAT {dat}, low, bit 3 one: stored");
            assert_eq!(tally.times(&never), 0, "{never}");
        }
    }
    for (name, least) in [
        ("STCTL, DAT off, across 512, bit 3 zero: stored", 20),
        ("STCTL, DAT off, across 512, bit 3 one: protected", 10),
        ("STCTL, DAT on, across 512, bit 3 zero: stored", 20),
        ("STCTL, DAT on, across 512, bit 3 one: protected", 10),
        // With DAT off only in 16 MiB.
        ("STCTL, DAT on, round the top, bit 3 zero: stored", 10),
        ("STCTL, DAT on, round the top, bit 3 one: protected", 3),
    ] {
        assert!(tally.times(name) > least, "{name}: {}", tally.times(name));
    }
}

#[test]
fn the_stored_set_has_the_addresses_at_the_ends() {
    let tally = &stored_set_read().low_addresses;
    for (address, with_bit) in [
        (0, "protected"),
        (508, "protected"),
        (510, "protected"),
        (511, "protected"),
        (512, "stored"),
        (516, "stored"),
    ] {
        for name in
            [format!("from {address}, bit 3 zero: stored"), format!("from {address}, bit 3 one: {with_bit}")]
        {
            assert!(tally.times(&name) > 10, "{name}: {}", tally.times(&name));
        }
    }
}

#[test]
fn the_stored_set_shows_what_protection_comes_before_and_does_not_affect() {
    let tally = &stored_set_read().low_addresses;
    for (code, least) in [(0, 100), (4, 20), (5, 5), (16, 0), (17, 2), (18, 2)] {
        let name = format!("protected before {code}");
        assert!(tally.times(&name) > least, "{name}: {}", tally.times(&name));
    }
    assert!(tally.times("operand byte fetched") > 50);
    for code in ["08", "80", "AC", "AD", "B2"] {
        let name = format!("control field stored, operation code {code}");
        assert!(tally.times(&name) > 30, "{name}: {}", tally.times(&name));
    }
}
