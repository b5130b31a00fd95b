//! What differs between two states, line by line.

use std::ops::Range;

use crate::record::{self, Record};

/// The most bytes of storage on one line.
const LINE: usize = 8;

/// Changed bytes stand on one line if at most so many between them have stayed: those of one word do.
const GAP: usize = 2;

/// Bytes of one key block.
const BLOCK: usize = 2_048;

/// All that a call may change.
#[derive(Clone)]
pub struct State {
    pub storage: Vec<u8>,
    pub keys: Vec<u8>,
    pub record: Record,
}

/// How two values that differ are put into words.
pub type Pair = fn(&str, &str) -> String;

/// Lines for what differs in storage and keys.
pub fn place_lines(left: &State, right: &State, pair: Pair) -> Vec<String> {
    let mut lines = storage_lines(&left.storage, &right.storage, pair);
    lines.extend(key_lines(&left.keys, &right.keys, pair));
    lines
}

/// `storage 000600: 04 -> 07` for what a call changed.
pub fn changed(old: &str, new: &str) -> String {
    format!("{old} -> {new}")
}

fn storage_lines(left: &[u8], right: &[u8], pair: Pair) -> Vec<String> {
    let line = |run: Range<usize>| {
        let (start, bytes) = (run.start, pair(&hex(&left[run.clone()]), &hex(&right[run])));
        format!("storage {start:06X}: {bytes}")
    };
    runs(left, right, LINE, GAP).into_iter().map(line).collect()
}

fn key_lines(left: &[u8], right: &[u8], pair: Pair) -> Vec<String> {
    let line = |run: Range<usize>| {
        let (block, first, last) = (run.start, run.start * BLOCK, run.end * BLOCK - 1);
        let keys = pair(&hex(&left[run.clone()]), &hex(&right[run]));
        format!("key of block {block} ({first:06X}-{last:06X}): {keys}")
    };
    runs(left, right, 1, 0).into_iter().map(line).collect()
}

/// Lines for the words of the record that differ.
pub fn record_lines(left: &Record, right: &Record, pair: Pair) -> Vec<String> {
    let differ = |&place: &usize| left[place] != right[place];
    let word = |record: &Record, place: usize| format!("{:08X}", record[place]);
    let line =
        |place| format!("record {}: {}", record::name(place), pair(&word(left, place), &word(right, place)));
    (0..record::WORDS).filter(differ).map(line).collect()
}

/// Stretches of at most `most` places, from one at which two equally long slices differ to another such;
/// between them at most `gap` in a row are the same.
pub fn runs(left: &[u8], right: &[u8], most: usize, gap: usize) -> Vec<Range<usize>> {
    if left == right {
        return Vec::new();
    }
    let mut runs: Vec<Range<usize>> = Vec::new();
    for place in (0..left.len().min(right.len())).filter(|&place| left[place] != right[place]) {
        match runs.last_mut() {
            Some(run) if place - run.end <= gap && place - run.start < most => run.end = place + 1,
            _ => runs.push(place..place + 1),
        }
    }
    runs
}

/// Bytes in hex, with spaces between them.
pub fn hex(bytes: &[u8]) -> String {
    let digits: Vec<String> = bytes.iter().map(|byte| format!("{byte:02X}")).collect();
    digits.join(" ")
}

#[cfg(test)]
mod tests {
    use super::*;

    fn lines_of_storage(new: &[u8]) -> Vec<String> {
        storage_lines(&vec![0; new.len()], new, changed)
    }

    #[test]
    fn nothing_differs() {
        let state = State { storage: vec![1, 2, 3], keys: vec![4], record: [5; 21] };
        assert!(place_lines(&state, &state, changed).is_empty());
        assert!(record_lines(&state.record, &state.record, changed).is_empty());
    }

    #[test]
    fn neighbours_share_a_line_of_at_most_eight() {
        let mut new = [0; 24];
        new[2..4].fill(0xAB);
        new[10..20].fill(0xCD);
        let expected = [
            "storage 000002: 00 00 -> AB AB",
            "storage 00000A: 00 00 00 00 00 00 00 00 -> CD CD CD CD CD CD CD CD",
            "storage 000012: 00 00 -> CD CD",
        ];
        assert_eq!(lines_of_storage(&new), expected);
    }

    #[test]
    fn so_do_bytes_of_a_word_with_others_between_them() {
        let swap_word = [8, 0, 0x3E, 0, 0, 0, 1, 0];
        assert_eq!(
            lines_of_storage(&swap_word),
            ["storage 000000: 00 00 00 -> 08 00 3E", "storage 000006: 00 -> 01"]
        );
        let across = [1, 1, 1, 1, 1, 1, 1, 0, 1, 0, 1];
        assert_eq!(
            lines_of_storage(&across),
            [
                "storage 000000: 00 00 00 00 00 00 00 -> 01 01 01 01 01 01 01",
                "storage 000008: 00 00 00 -> 01 00 01"
            ]
        );
    }

    #[test]
    fn keys_by_block_and_words_by_name() {
        let expected = [
            "key of block 1 (000800-000FFF): 00 -> 38",
            "key of block 2 (001000-0017FF): 04 -> 08",
            "key of block 8191 (FFF800-FFFFFF): 00 -> 01",
        ];
        let (mut old, mut new) = (vec![0; 8_192], vec![0; 8_192]);
        old[2] = 4;
        (new[1], new[2], new[8_191]) = (0x38, 8, 1);
        assert_eq!(key_lines(&old, &new, changed), expected);
        let mut record = [0; 21];
        (record[1], record[20]) = (4, 0x8000_0000);
        let expected = [
            "record PSW bits 32-63: 00000000 -> 00000004",
            "record control register 6: 00000000 -> 80000000",
        ];
        assert_eq!(record_lines(&[0; 21], &record, changed), expected);
    }
}
