//! Everything that can be reached, written by hand from documents 01 and 02, against random calls of one seed, and
//! against the very calls of the stored set.

use std::collections::BTreeSet;

use second::report::{Outcome, Point, Tally};

use crate::key_calls::KeyTally;
use crate::{stored_set_read, stored_set_tally};

const SEED: u64 = 20_260_401;
const CALLS: u64 = 28_000;

const ALL: [&str; 8] = ["SSM", "STCTL", "STNSM", "STOSM", "SSK", "ISK", "RRB", "LRA"];
const STORE_THEN: [&str; 2] = ["STNSM", "STOSM"];

/// Ending 0, 1 with each code, 2, 3 with each step or place, 9 to 13.
fn outcomes_by_hand() -> BTreeSet<(Outcome, &'static str)> {
    let mut table = BTreeSet::new();
    let mut row = |mnemonic, outcomes: &[Outcome]| {
        table.extend(outcomes.iter().map(|&outcome| (outcome, mnemonic)));
    };
    let codes = [(1, 2), (1, 4), (1, 5), (1, 16), (1, 17), (1, 18)];
    for mnemonic in ALL {
        row(mnemonic, &[(0, 0), (9, 0), (10, 0), (11, 0), (12, 0)]);
    }
    row("other", &[(10, 0), (11, 0), (12, 0), (13, 0)]);
    row("SSM", &codes);
    row("SSM", &[(2, 0), (3, 2), (3, 3), (3, 7), (3, 8)]);
    row("STCTL", &codes);
    row("STCTL", &[(3, 2), (3, 5)]);
    for mnemonic in STORE_THEN {
        row(mnemonic, &codes);
        row(mnemonic, &[(2, 0), (3, 2), (3, 3)]);
    }
    // SSK reports no access exception: every field that it fetches is a control field.
    row("SSK", &[(1, 2), (3, 2), (3, 5), (3, 7), (3, 8), (3, 9), (3, 11)]);
    // Nor does ISK; RRB does for its second halfword. Places, not steps.
    row("ISK", &[(1, 2), (3, 1), (3, 2), (3, 3), (3, 4), (3, 5), (3, 6), (3, 7), (3, 8)]);
    row("RRB", &codes);
    row("RRB", &[(3, 1), (3, 2), (3, 3), (3, 4), (3, 5), (3, 6)]);
    // MICRSEG and MICCREG are one doubleword on its boundary, so that place 2, the second, is in storage if 1 is.
    row("LRA", &codes);
    row("LRA", &[(3, 1), (3, 3), (3, 4), (3, 5), (3, 6), (3, 7), (3, 8)]);
    table
}

/// Codes of a logical access with the step of the walk; 7 is the real address, 8 protection by the key.
const ACCESS: [(u32, u8); 11] =
    [(18, 1), (16, 2), (5, 3), (16, 3), (18, 3), (17, 4), (5, 5), (17, 5), (18, 5), (5, 7), (4, 8)];

/// The same with the step at which the attempt ends.
fn points_by_hand() -> BTreeSet<Point> {
    let mut table: BTreeSet<Point> = BTreeSet::new();
    for mnemonic in ALL {
        table.extend([9, 10, 11, 12].map(|number| (mnemonic, (number, 0), 0, 0)));
        table.insert((mnemonic, (1, 2), 1, 0));
    }
    table.extend([10, 11, 12, 13].map(|number| ("other", (number, 0), 0, 0)));
    // Steps at which ending 3, refusals, "expanded" and completion are given.
    table.extend([2, 3, 7, 8].map(|step| ("SSM", (3, u32::from(step)), step, 0)));
    table.extend([
        ("SSM", (1, 2), 4, 0),
        ("SSM", (1, 2), 9, 0),
        ("SSM", (2, 0), 9, 0),
        ("SSM", (0, 0), 10, 0),
    ]);
    table.extend([2, 5].map(|step| ("STCTL", (3, u32::from(step)), step, 0)));
    table.extend([("STCTL", (1, 2), 4, 0), ("STCTL", (0, 0), 5, 0)]);
    for mnemonic in STORE_THEN {
        table.extend([2, 3].map(|step| (mnemonic, (3, u32::from(step)), step, 0)));
        table.extend([(mnemonic, (1, 2), 4, 0), (mnemonic, (2, 0), 4, 0), (mnemonic, (0, 0), 7, 0)]);
    }
    table.extend([2, 5, 7, 8, 9, 11].map(|step| ("SSK", (3, u32::from(step)), step, 0)));
    table.extend([3, 4, 6, 10].map(|step| ("SSK", (1, 2), step, 0)));
    table.insert(("SSK", (0, 0), 12, 0));
    table.extend(key_points_by_hand());
    table.extend(lra_points_by_hand());
    table.extend(accesses_by_hand());
    table
}

/// ISK and RRB: the places with their steps. ISK's MICVPSW (step 12) and virtual PSW (13) have a place less where the
/// page is invalid.
fn key_points_by_hand() -> BTreeSet<Point> {
    let isk = [(1, 2), (2, 5), (3, 7), (4, 8), (5, 9), (6, 11), (7, 12), (6, 12), (8, 13), (7, 13)];
    let rrb = [(1, 2), (2, 6), (3, 8), (4, 9), (5, 10), (6, 12)];
    let mut table: BTreeSet<Point> = BTreeSet::new();
    table.extend(isk.map(|(place, step)| ("ISK", (3, place), step, 0)));
    table.extend([3, 4, 6, 10].map(|step| ("ISK", (1, 2), step, 0)));
    table.insert(("ISK", (0, 0), 14, 0));
    table.extend(rrb.map(|(place, step)| ("RRB", (3, place), step, 0)));
    table.extend([3, 5, 7, 11].map(|step| ("RRB", (1, 2), step, 0)));
    table.insert(("RRB", (0, 0), 13, 0));
    table
}

/// LRA: the places with their steps; refusals of the two walks and of the virtual entries; completion with condition
/// code 3 (steps 6 and 15), 1, 2 and 0.
fn lra_points_by_hand() -> BTreeSet<Point> {
    let mut table: BTreeSet<Point> = BTreeSet::new();
    let places = [(1, 2), (3, 3), (4, 3), (5, 8), (6, 10), (7, 17), (8, 19)];
    table.extend(places.map(|(place, step)| ("LRA", (3, place), step, 0)));
    table.extend([4, 7, 9, 11, 12, 14, 16, 18, 20, 21, 23].map(|step| ("LRA", (1, 2), step, 0)));
    table.extend([6, 13, 15, 22, 24].map(|step| ("LRA", (0, 0), step, 0)));
    table
}

/// Those of logical accesses. At the operand walk step 1 cannot fail: the second halfword has passed it.
fn accesses_by_hand() -> BTreeSet<Point> {
    let mut table: BTreeSet<Point> = BTreeSet::new();
    for (code, walk_step) in ACCESS {
        table.insert(("SSM", (1, code), 5, walk_step));
        table.insert(("STCTL", (1, code), 3, walk_step));
        table.insert(("RRB", (1, code), 4, walk_step));
        table.insert(("LRA", (1, code), 5, walk_step));
        for mnemonic in STORE_THEN {
            table.insert((mnemonic, (1, 2), 5, walk_step));
        }
        if walk_step != 1 {
            table.insert(("SSM", (1, code), 6, walk_step));
            table.insert(("STCTL", (1, code), 5, walk_step));
            for mnemonic in STORE_THEN {
                table.insert((mnemonic, (1, code), 6, walk_step));
            }
        }
    }
    // 9 is low-address protection (document 02, R-6), of operand stores only.
    table.insert(("STCTL", (1, 4), 5, 9));
    table.extend(STORE_THEN.map(|mnemonic| (mnemonic, (1, 4), 6, 9)));
    table
}

fn check_everything_is_reached(tally: &Tally) {
    let outcomes: BTreeSet<_> = tally.outcomes.keys().copied().collect();
    assert_eq!(outcomes, outcomes_by_hand());
    let points: BTreeSet<_> = tally.points.keys().copied().collect();
    let by_hand = points_by_hand();
    let missing: Vec<_> = by_hand.difference(&points).collect();
    let extra: Vec<_> = points.difference(&by_hand).collect();
    assert!(missing.is_empty() && extra.is_empty(), "missing {missing:?}, extra {extra:?}");
    assert_eq!(tally.highest_count, 85);
}

fn check_every_format_completes(tally: &Tally) {
    for mnemonic in ["SSM", "STCTL", "STNSM", "STOSM", "RRB", "LRA"] {
        for state in ["DAT off", "DAT on, 2K, 64K", "DAT on, 2K, 1M", "DAT on, 4K, 64K", "DAT on, 4K, 1M"] {
            assert!(tally.translation[&(mnemonic, state)].1 > 20, "{mnemonic} {state}");
        }
    }
    for mnemonic in ["SSK", "ISK", "RRB", "LRA"] {
        for state in ["MICRSEG, 4K, 64K", "MICRSEG, 4K, 1M"] {
            assert!(tally.translation[&(mnemonic, state)].1 > 20, "{mnemonic} {state}");
        }
    }
    for state in ["MICRSEG, 2K, 64K", "MICRSEG, 2K, 1M"] {
        assert!(tally.translation[&("LRA", state)].1 > 20, "LRA {state}");
    }
}

#[test]
fn random_calls_reach_everything_and_nothing_else() {
    let tally = Tally::of_random_calls(SEED, CALLS);
    check_everything_is_reached(&tally);
    let share = 100 * tally.completed / tally.calls;
    assert!((40..=60).contains(&share), "{share} % completed");
}

#[test]
fn every_format_completes_in_every_instruction() {
    check_every_format_completes(&Tally::of_random_calls(SEED + 1, 5_000));
}

#[test]
fn the_stored_set_reaches_everything_and_nothing_else() {
    let tally = stored_set_tally();
    assert_eq!(tally.calls, 10_000);
    check_everything_is_reached(tally);
    check_every_format_completes(tally);
    let share = 100 * tally.completed / tally.calls;
    assert!((50..=70).contains(&share), "{share} % completed");
}

fn check_times(tally: &KeyTally, name: &str, least: usize) {
    assert!(tally.times(name) >= least, "{name}: {}", tally.times(name));
}

/// Completed calls: every register as R1, as R2 and as both; every row and column of Figure 6; what the key read by
/// step 11 has of the call's own fetches, and has not of those that come after it.
#[test]
fn the_stored_set_has_every_kind_of_insert_storage_key() {
    let tally = &stored_set_read().key_calls;
    for number in 0..16 {
        check_times(tally, &format!("R1 {number}"), 20);
        check_times(tally, &format!("R2 {number}"), 20);
        check_times(tally, &format!("R1 and R2 {number}"), 4);
    }
    check_times(tally, "R1 is R2", 150);
    for mode in ["EC", "BC"] {
        for page in ["valid", "invalid"] {
            for bit_20 in [0, 1] {
                check_times(tally, &format!("ISK, {mode}, {page}, bit 20 {bit_20}"), 50);
            }
        }
        check_times(tally, &format!("ISK, {mode}, key read after a fetch in its block"), 20);
        check_times(tally, &format!("ISK, {mode}, key read before a fetch in its block"), 3);
    }
}

/// From every condition code to every other; virtual and backup bits in every combination; the second halfword's
/// codes in all formats.
#[test]
fn the_stored_set_has_every_kind_of_reset_reference_bit() {
    let tally = &stored_set_read().key_calls;
    for old in 0..4 {
        for new in 0..4 {
            check_times(tally, &format!("RRB, condition code {old} to {new}"), 25);
            check_times(tally, &format!("RRB, virtual bits {old:02b} and {new:02b}"), 20);
            check_times(tally, &format!("RRB, backup bits {:04b}", 4 * old + new), 20);
        }
    }
    for format in ["2K, 64K", "2K, 1M", "4K, 64K", "4K, 1M"] {
        for code in [4, 5, 16, 17, 18] {
            check_times(tally, &format!("RRB, {format}, code {code}"), 4);
        }
        for page in ["valid", "invalid"] {
            check_times(tally, &format!("RRB, {format}, {page}"), 30);
        }
    }
    check_times(tally, "RRB, wrong format, code 18", 5);
    check_times(tally, "RRB, DAT off, code 4", 5);
    check_times(tally, "RRB, DAT off, code 5", 5);
}

/// B2 with another second byte gets 13: each that differs from 13 in one bit.
#[test]
fn the_stored_set_has_other_codes_of_b2() {
    let tally = &stored_set_read().key_calls;
    for bit in 0..8 {
        check_times(tally, &format!("B2{:02X}: 13", 0x13 ^ 1 << bit), 1);
    }
}
