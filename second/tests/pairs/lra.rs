//! Demand 3 with LRA (document 02, R-9), which reads MICBLOK, ECBLOK, real and virtual tables and stores nothing.

use std::collections::BTreeSet;

use second::pairs::{keep_to_their_parts, Pair, Run};
use second::setup::Setup;

use crate::{check_conclusion, pair, PAIRS};

/// LRA only reads: its part is empty, and two guests may load by the same tables.
#[test]
fn two_guests_load_by_the_same_tables() {
    let lra = Setup::lra();
    let mut into_register_4 = lra.clone();
    into_register_4.first_halfword = 0xB140;
    let lists = [vec![lra.request(); 2], vec![into_register_4.request()]];
    let pair = Pair { image: lra.image.clone(), lists, order: vec![0, 1, 0] };
    let (alone, both) = (pair.alone(), pair.interleaved());
    assert!(keep_to_their_parts(&alone) && alone.iter().all(|run| run.part().is_empty()));
    check_conclusion(&pair, &[BTreeSet::new(), BTreeSet::new()], &alone, &both);
    let register = |run: &Run, call: usize, number: usize| run.answers[call].guest.general_registers[number];
    assert_eq!([register(&both, 0, 3), register(&both, 1, 4)], [0x00AB_CE78; 2]);
}

/// Why LRA must not consult the other's part: STCTL stores over the virtual segment entry (register 5, A5B5C5D5:
/// invalid) in block 5, or over a real page entry (invalid) in block 1.
#[test]
fn a_store_in_the_tables_of_lra_shows() {
    for (operand, code, ending) in [(0x2910, 1, 0), (0xC14, 0, 1)] {
        let lra = Setup::lra().word(0x514, if ending == 0 { 0xA5B5_C5D5 } else { 0x0000_0028 });
        let stctl = Setup::stctl(5, 5).operand(operand);
        let lists = [vec![lra.request()], vec![stctl.request()]];
        let pair = Pair { image: lra.image.clone(), lists, order: vec![1, 0] };
        let (alone, both) = (pair.alone(), pair.interleaved());
        assert!(!keep_to_their_parts(&alone));
        assert_eq!(alone[0].answers[0].ending.number(), 0);
        let answer = &both.answers[1];
        assert_eq!(answer.ending.number(), ending);
        assert!(ending == 1 || answer.guest.psw_0_31 >> 12 & 3 == code);
    }
}

/// LRA completes in both lists of many pairs, and with the same tables in both lists of some.
#[test]
fn pairs_have_lra() {
    let (mut completed, mut shared) = ([0, 0], 0);
    for pair in (0..PAIRS).map(pair) {
        for (list, run) in pair.alone().iter().enumerate() {
            let calls = pair.lists[list].iter().zip(&run.answers);
            let loads = calls.filter(|(request, answer)| {
                request.first_halfword >> 8 == 0xB1 && answer.ending.number() == 0
            });
            completed[list] += loads.count();
        }
        let same = |one: &&second::Request| {
            one.first_halfword >> 8 == 0xB1 && pair.lists[1].iter().any(|other| other.guest == one.guest)
        };
        shared += pair.lists[0].iter().filter(same).count();
    }
    assert!(completed.iter().all(|&times| times > 40) && shared > 10, "{completed:?} {shared}");
}
