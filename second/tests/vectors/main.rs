//! Files of calls: read back, sizes, contents, and what the stored set reaches.

mod expanded;
mod key_calls;
mod large;
mod low_addresses;
mod lra_calls;
mod lra_reached;
mod pairs_in_file;
mod reached;
mod reader;
mod recording;

use std::sync::OnceLock;

use expanded::ExpandedTally;
use key_calls::KeyTally;
use low_addresses::LowAddressTally;
use lra_calls::LraTally;
use reader::{read, Crc, ReadCall};
use recording::RecordingTally;
use second::report::{TableWords, Tally};
use second::vectors::{SetOptions, Shares, VectorSet};
use second::Answer;

/// The stored set: seed 1, 10,000 calls.
fn stored_set() -> &'static VectorSet {
    static SET: OnceLock<VectorSet> = OnceLock::new();
    SET.get_or_init(|| VectorSet::new(SetOptions { seed: 1, calls: 10_000, large: false }))
}

/// What reading a set gives.
struct ReadSet {
    printed: String,
    tally: Tally,
    recording: RecordingTally,
    low_addresses: LowAddressTally,
    expanded: ExpandedTally,
    key_calls: KeyTally,
    lra_calls: LraTally,
    storage_sizes: Vec<usize>,
    most_keys: usize,
    /// Calls on each storage, in the order of the file.
    calls_on_storage: Vec<usize>,
}

fn read_set(set: &VectorSet) -> ReadSet {
    let mut read_set = ReadSet {
        printed: String::new(),
        tally: Tally::default(),
        recording: RecordingTally::default(),
        low_addresses: LowAddressTally::default(),
        expanded: ExpandedTally::default(),
        key_calls: KeyTally::default(),
        lra_calls: LraTally::default(),
        storage_sizes: Vec::new(),
        most_keys: 0,
        calls_on_storage: Vec::new(),
    };
    let printed = read(set.stdin(), &mut |call: &ReadCall, answer: &Answer| read_set.add(call, answer));
    ReadSet { printed, ..read_set }
}

impl ReadSet {
    fn add(&mut self, call: &ReadCall, answer: &Answer) {
        self.tally.add(&call.request, TableWords::of(call.storage, &call.request), answer);
        self.recording.add(call, answer);
        self.low_addresses.add(call, answer);
        self.expanded.add(call, answer);
        self.key_calls.add(call, answer);
        self.lra_calls.add(call, answer);
        self.storage_sizes.push(call.storage.len());
        self.most_keys = self.most_keys.max(call.keys.len());
        self.calls_on_storage.resize(call.storage_number, 0);
        self.calls_on_storage[call.storage_number - 1] += 1;
    }
}

/// The stored set as it is read back from its text.
fn stored_set_read() -> &'static ReadSet {
    static READ: OnceLock<ReadSet> = OnceLock::new();
    READ.get_or_init(|| read_set(stored_set()))
}

fn stored_set_tally() -> &'static Tally {
    &stored_set_read().tally
}

#[test]
fn known_checksum() {
    assert_eq!(Crc::new().of(&[b"12345", b"6789"]), 0xCBF4_3926);
    assert_eq!(second::checksum::checksum(b"123456789"), 0xCBF4_3926);
}

#[test]
fn the_stored_set_read_back_gives_what_must_be_printed() {
    let read = stored_set_read();
    assert!(read.printed == stored_set().stdout());
    // The report is made over exactly the calls in the file.
    assert_eq!(read.tally.text(), stored_set().tally.text());
    assert!(stored_set().stdin().len() < 7_000_000);
}

#[test]
fn other_seeds_read_back_give_what_must_be_printed() {
    // The fixed calls leave room for all other kinds: the least of each, in a small set and in the smallest.
    for (seed, calls, least) in
        [(2, 2_500, [100, 600, 300]), (77, 2_500, [100, 600, 300]), (3, 2_000, [60, 350, 200])]
    {
        let set = VectorSet::new(SetOptions { seed, calls, large: false });
        let read = read_set(&set);
        assert!(read.printed == set.stdout());
        assert_eq!(read.tally.calls, calls as u64);
        let Shares { figures, single, in_lists, in_pairs } = set.shares;
        let fixed: usize =
            second::fixed::all().iter().flat_map(|(_, lists)| lists).map(|list| list.calls.len()).sum();
        assert_eq!(figures + single + in_lists + in_pairs, calls);
        assert!(figures + single > fixed + least[0] && in_lists > least[1] && in_pairs > least[2]);
    }
}

#[test]
fn shares_of_the_stored_set() {
    let Shares { figures, single, in_lists, in_pairs } = stored_set().shares;
    assert_eq!(figures + single + in_lists + in_pairs, 10_000);
    assert!((2_600..=2_800).contains(&single), "{single}");
    assert!((4_400..=4_600).contains(&in_lists), "{in_lists}");
    assert!((2_400..=2_600).contains(&in_pairs), "{in_pairs}");
    let of_figures = [second::fixed::figures(), second::fixed::key_figures(), second::fixed::lra_figure()];
    assert_eq!(figures, of_figures.iter().map(Vec::len).sum::<usize>());
    // Single calls have a storage each, so do lists; no list is longer than 15 and few are short.
    let on_storage = &stored_set_read().calls_on_storage;
    assert_eq!(on_storage.iter().sum::<usize>(), 10_000);
    assert!(on_storage.iter().all(|&calls| (1..=15).contains(&calls)));
    assert!(on_storage.iter().filter(|&&calls| calls > 1).count() > 900);
}

#[test]
fn sizes_of_the_stored_set() {
    let read = stored_set_read();
    assert!(read.storage_sizes.iter().all(|&size| size <= 4_194_304) && read.most_keys <= 8_448);
    let at_least = |size: usize| read.storage_sizes.iter().filter(|&&one| one >= size).count();
    let four_mib = at_least(0x40_0000 - 2048);
    assert!((1..=100).contains(&four_mib), "{four_mib} at 4 MiB");
    let one_mib = at_least(0x10_0000 - 2048) - four_mib;
    assert!((1..=300).contains(&one_mib), "{one_mib} at 1 MiB");
    let average = read.storage_sizes.iter().sum::<usize>() / read.storage_sizes.len();
    assert!(average < 120_000, "{average}");
}

#[test]
fn form_of_the_stored_set() {
    let text = stored_set().stdin();
    let mut record = "";
    for line in text.lines() {
        // Only what is not zero, and a record only when it is another.
        match &line[..1] {
            "w" | "q" => assert!(line[2..8].ends_with(['0', '4', '8', 'c']) && !line.ends_with(" 00000000")),
            "b" | "k" => assert!(!line.ends_with(" 00")),
            "r" => {
                assert_ne!(line, record);
                record = line;
            }
            _ => {}
        }
    }
    for kind in ["#", "s", "w", "b", "q", "k", "r", "a", "e"] {
        assert!(text.lines().any(|line| line.starts_with(kind)), "{kind}");
    }
    let parts: Vec<&str> = text.lines().filter(|line| line.starts_with("# ")).map(str::trim_end).collect();
    let expected = [
        "# Figures 13 to 18",
        "# Figures 6, 7, 10 and 11",
        "# Figure 9",
        "# Every bit of the system mask",
        "# Bad calls: every combination",
        "# Low-address protection",
        "# Expanded assist switched on",
        "# Steps of ISK and RRB",
        "# Second halfword of RRB and LRA",
        "# ISK and RRB in the page's own block",
        "# First halfwords beside ISK, RRB and LRA",
        "# Condition codes of LRA in every format",
        "# Bits of LRA's registers and entries",
        "# Steps of LRA",
        "# Addresses of LRA",
        "# Lists for the impostors",
        "# Single calls",
        "# Lists of calls on one storage",
    ];
    let places = expected.map(|part| parts.iter().position(|&one| one == part).expect(part));
    assert!(places.is_sorted() && parts[parts.len() - 1].starts_with("# Pairs of lists"));
}
