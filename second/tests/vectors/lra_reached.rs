//! What the calls of LRA in the stored set reach.

use second::report::LOADS;

use crate::lra_calls::LraTally;
use crate::stored_set_read;

const FORMATS: [&str; 4] = ["2K, 64K", "2K, 1M", "4K, 64K", "4K, 1M"];

fn check_times(tally: &LraTally, name: &str, least: usize) {
    assert!(tally.times(name) >= least, "{name}: {}", tally.times(name));
}

/// With 1M segments there is no test of the segment-table length.
#[test]
fn every_condition_code_in_every_format() {
    let tally = &stored_set_read().lra_calls;
    for code in LOADS {
        for format in FORMATS {
            for real in FORMATS {
                let name = format!("code {code}: {format}, real {real}");
                if code == "3 segment" && format.ends_with("1M") {
                    assert_eq!(tally.times(&name), 0, "{name}");
                } else {
                    check_times(tally, &name, 3);
                }
            }
        }
    }
    for old in 0..4 {
        for new in 0..4 {
            check_times(tally, &format!("condition code {old} to {new}"), 10);
        }
    }
}

#[test]
fn every_register_and_every_way_to_the_address() {
    let tally = &stored_set_read().lra_calls;
    for number in 0..16 {
        check_times(tally, &format!("R1 {number}"), 10);
        check_times(tally, &format!("index {number}"), 8);
    }
    for (name, least) in [
        ("base 0, index 0", 5),
        ("base 0, index not", 30),
        ("index 0, base not", 100),
        ("base and index", 100),
        ("base is index", 30),
        ("R1 is base", 50),
        ("R1 is index", 50),
    ] {
        check_times(tally, name, least);
    }
}

/// Place 2 cannot be: MICRSEG and MICCREG are one doubleword on its boundary.
#[test]
fn every_place_of_ending_3() {
    let tally = &stored_set_read().lra_calls;
    for place in [1, 3, 4, 5, 6, 7, 8] {
        check_times(tally, &format!("place {place}"), 4);
    }
    assert_eq!(tally.times("place 2"), 0);
}

#[test]
fn every_refusal() {
    let tally = &stored_set_read().lra_calls;
    check_times(tally, "step 1", 10);
    for bits in 0..32 {
        let least = usize::from(![0b01000, 0b01010, 0b10000, 0b10010].contains(&bits));
        check_times(tally, &format!("virtual format {bits:05b}"), least);
    }
    for walk in ["first walk", "second walk"] {
        for trouble in [
            "segment length",
            "segment invalid",
            "segment format",
            "page length",
            "page invalid, 2K",
            "page invalid, 4K",
            "page format, 2K",
            "page format, 4K",
            "virtual entry missing",
        ] {
            check_times(tally, &format!("{walk}: {trouble}"), 2);
        }
    }
    check_times(tally, "virtual segment entry: format", 6);
    check_times(tally, "virtual page entry: format, 2K", 3);
    check_times(tally, "virtual page entry: format, 4K", 3);
}

/// The codes of the second halfword with DAT off and in all formats.
#[test]
fn every_exception_of_the_second_halfword() {
    let tally = &stored_set_read().lra_calls;
    for code in [4, 5, 16, 17, 18] {
        for format in FORMATS {
            check_times(tally, &format!("{format}: code {code}"), 1);
        }
        let in_all: usize = FORMATS.iter().map(|format| tally.times(&format!("{format}: code {code}"))).sum();
        assert!(in_all >= 8, "code {code}: {in_all}");
    }
    check_times(tally, "wrong format: code 18", 5);
    check_times(tally, "DAT off: code 4", 3);
    check_times(tally, "DAT off: code 5", 3);
}

#[test]
fn addresses_that_go_round() {
    let tally = &stored_set_read().lra_calls;
    for name in [
        "segment entry goes round",
        "segment entry goes round, its address loaded",
        "page entry goes round",
        "page entry goes round, its address loaded",
        "real segment entry goes round",
        "real page entry goes round",
    ] {
        check_times(tally, name, 10);
    }
}

/// Each first byte that differs from B1 in one bit gets 13, but B2 with 13, which is RRB.
#[test]
fn other_codes_beside_b1() {
    let tally = &stored_set_read().lra_calls;
    for bit in 0..8 {
        check_times(tally, &format!("code {:02X}: 13", 0xB1 ^ 1 << bit), 1);
    }
}
