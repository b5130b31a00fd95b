//! SSK edges.

use super::Edge;
use crate::setup::Setup;

pub fn edges() -> Vec<Edge> {
    let bit_20_zero = Setup::ssk().key(2, 0x04);
    let mut bit_20_one = Setup::ssk().key(3, 0x04);
    bit_20_one.guest.general_registers[4] = 0x0002_3800;
    vec![
        Edge::new(true, "R1 3F, swap word 0, old key 04, valid page, bit 20 zero", &bit_20_zero),
        Edge::new(true, "R1 3F, swap word 0, old key 04, valid page, bit 20 one", &bit_20_one),
    ]
}
