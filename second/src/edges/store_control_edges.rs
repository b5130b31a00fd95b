//! STCTL edges; those in 16 MiB are in `large`.

use super::Edge;
use crate::setup::Setup;

pub fn edges() -> Vec<Edge> {
    vec![
        Edge::new(true, "R1=14, R3=1: registers 14, 15, 0, 1", &Setup::stctl(14, 1)),
        Edge::new(true, "R1=R3=5: one register", &Setup::stctl(5, 5)),
        Edge::new(true, "R1=1, R3=0: sixteen registers", &Setup::stctl(1, 0)),
        Edge::new(
            false,
            "operand 3FFFFC, two registers, 4 MiB: second word not in storage",
            &Setup::stctl_in(6, 7, 0x40_0000).operand(0x3F_FFFC),
        ),
    ]
}
