//! SSM, STNSM and STOSM edges. Those that come to "expanded", and SSM's refusal in BC mode, are given with the
//! expanded assist installed or not and control register 6 bit 6 both ways (document 02, R-3).

use super::Edge;
use crate::setup::{Setup, MICBLOK, VIRTUAL_BC, VIRTUAL_EC};

pub fn edges() -> Vec<Edge> {
    let mut edges = set_system_mask_edges();
    edges.extend(store_then_and_edges());
    edges.extend(store_then_or_edges());
    edges
}

fn set_system_mask_edges() -> Vec<Edge> {
    let ec_07 = Setup::ssm([0x04, VIRTUAL_EC], 0x07);
    let ec_84 = Setup::ssm([0x04, VIRTUAL_EC], 0x84);
    let bc_00 = Setup::ssm([0xFF, VIRTUAL_BC], 0x00).pending();
    let bc_01 = Setup::ssm([0x00, VIRTUAL_BC], 0x01).pending();
    let mut edges = vec![Edge::new(true, "EC, old 04, new 07", &ec_07)];
    edges.extend(four_ways("EC, old 04, new 07, pending", &ec_07.pending()));
    edges.extend(four_ways("EC, old 04, new 84", &ec_84));
    edges.push(Edge::new(
        false,
        "EC, old 04, new 84, expanded installed, bits 2-5 and 7 one, bit 6 zero",
        &ec_84.expanded().control_register_6(0xBD00_0000 | MICBLOK),
    ));
    edges.push(Edge::new(true, "BC, pending, old FF, new 00", &bc_00));
    edges.extend(four_ways("BC, pending, old 00, new 01", &bc_01));
    edges
}

fn store_then_and_edges() -> Vec<Edge> {
    let and_f8 = Setup::stnsm([0x07, VIRTUAL_EC], 0xF8);
    let mut edges = vec![Edge::new(true, "EC, old 07, AND FC", &Setup::stnsm([0x07, VIRTUAL_EC], 0xFC))];
    edges.extend(four_ways("EC, old 07, AND F8", &and_f8));
    edges.push(Edge::new(
        false,
        "EC, old 07, AND F8, expanded installed, bits 2, 4, 5 and 7 one, bit 6 zero",
        &and_f8.expanded().control_register_6(0xAD00_0000 | MICBLOK),
    ));
    edges
}

fn store_then_or_edges() -> Vec<Edge> {
    let ec_87 = Setup::stosm([0x07, VIRTUAL_EC], 0x87).expanded();
    let bc_03 = Setup::stosm([0x04, VIRTUAL_BC], 0x03).pending().expanded();
    let mut edges = vec![
        Edge::new(true, "EC, pending, old 07, OR 03", &Setup::stosm([0x07, VIRTUAL_EC], 0x03).pending()),
        Edge::new(true, "BC, pending, old 07, OR 03", &Setup::stosm([0x07, VIRTUAL_BC], 0x03).pending()),
    ];
    edges.extend(both_ways(false, "EC, old 07, OR 87, expanded installed", &ec_87));
    edges.extend(both_ways(false, "BC, pending, old 04, OR 03, expanded installed", &bc_03));
    edges
}

/// Marked where the expanded assist is installed.
fn four_ways(case: &str, setup: &Setup) -> Vec<Edge> {
    let installed = both_ways(true, &format!("{case}, expanded installed"), &setup.clone().expanded());
    let not_installed = both_ways(false, &format!("{case}, expanded not installed"), setup);
    installed.into_iter().chain(not_installed).collect()
}

/// Control register 6 bit 6 one, then zero.
fn both_ways(marked: bool, case: &str, setup: &Setup) -> [Edge; 2] {
    [
        Edge::new(marked, &format!("{case}, bit 6 one"), &setup.clone().switched_on()),
        Edge::new(marked, &format!("{case}, bit 6 zero"), setup),
    ]
}
