//! Demand 3, as document 02, R-13 restates it, over many pairs of lists: each keeps to its own part, which is whole
//! blocks with their keys, so an order of both gives what each gives alone.

mod lra;

use std::collections::BTreeSet;

use second::generate::{generate, generate_pair};
use second::pairs::{keep_to_their_parts, Pair, Run};
use second::setup::{Setup, MICBLOK, VIRTUAL_BC, VIRTUAL_EC};
use second::{Answer, ReferenceKind};

const PAIRS: u64 = 400;

fn pair(index: u64) -> Pair {
    let lengths = [2 + index as usize % 5, 2 + index as usize / 5 % 5];
    let size = [0x2000, 0x2800, 0x4000, 0x8000, 0x1_0000, 0x10_0000][index as usize % 6];
    generate_pair(11, index, lengths, size)
}

/// The ending with all that it carries, the count and the record handed back.
fn same_answer(one: &Answer, other: &Answer) -> bool {
    (one.ending, one.count(), one.guest) == (other.ending, other.count(), other.guest)
}

/// The answers of the interleaved run that belong to one list.
fn answers_of<'a>(pair: &Pair, run: &'a Run, list: usize) -> Vec<&'a Answer> {
    pair.order.iter().zip(&run.answers).filter(|(&one, _)| one == list).map(|(_, answer)| answer).collect()
}

/// The numbers of the blocks of either part.
type Parts = [BTreeSet<u32>; 2];

/// The parts are disjoint; a list stores, sets keys and reads reference bits in its own part only, and consults nothing
/// in the other's.
fn check_premise(parts: &Parts, alone: &[Run; 2]) {
    assert!(parts[0].is_disjoint(&parts[1]));
    for (list, run) in alone.iter().enumerate() {
        assert!(run.changed.blocks().is_subset(&parts[list]));
        assert!(run.read_whole.is_subset(&parts[list]));
        assert!(run.consulted.blocks().is_disjoint(&parts[1 - list]));
    }
}

/// Each call gets the answer that it got alone, each part ends as its list alone left it. In neither part bytes are as
/// at the start, keys too but for the reference bit: it is one exactly if it was one or either list alone set it.
fn check_conclusion(pair: &Pair, parts: &Parts, alone: &[Run; 2], both: &Run) {
    let (mut storage, mut keys) = (pair.image.storage(), pair.image.key_bytes());
    for (number, key) in keys.iter_mut().enumerate() {
        *key |= (alone[0].keys[number] | alone[1].keys[number]) & 0x04;
    }
    for (list, run) in alone.iter().enumerate() {
        let answers = answers_of(pair, both, list);
        assert_eq!(answers.len(), run.answers.len());
        assert!(answers.iter().zip(&run.answers).all(|(one, other)| same_answer(one, other)));
        for &number in &parts[list] {
            let number = number as usize;
            let block = 2_048 * number..2_048 * (number + 1);
            storage[block.clone()].copy_from_slice(&run.storage[block]);
            keys[number] = run.keys[number];
        }
    }
    assert!(both.storage == storage);
    assert_eq!(both.keys, keys);
}

/// The smallest parts, and larger ones: also what no other list consults.
fn choices_of_parts(alone: &[Run; 2]) -> [Parts; 2] {
    let smallest = [alone[0].part(), alone[1].part()];
    let consulted = [alone[0].consulted.blocks(), alone[1].consulted.blocks()];
    let larger = [&consulted[0] - &consulted[1], &consulted[1] - &consulted[0]];
    [smallest.clone(), [&smallest[0] | &larger[0], &smallest[1] | &larger[1]]]
}

#[test]
fn an_order_of_both_lists_gives_what_each_gives_alone() {
    let in_16_mib = (0..4).map(|index| generate_pair(12, index, [4, 5], 0x100_0000));
    for pair in (0..PAIRS).map(pair).chain(in_16_mib) {
        let (alone, both) = (pair.alone(), pair.interleaved());
        assert!(keep_to_their_parts(&alone));
        for parts in choices_of_parts(&alone) {
            check_premise(&parts, &alone);
            check_conclusion(&pair, &parts, &alone, &both);
        }
    }
}

/// "No call may read the reference bit of a block in neither part": SSK step 11 and RRB step 12 set the key that they
/// have read, so the block is in the list's own part; ISK step 11 sets none, so the key must be noted as read whole.
/// No other key is looked at but for protection.
#[test]
fn a_reference_bit_is_read_only_where_the_key_is_set_or_by_isk() {
    let mut read = [0, 0, 0];
    for call in (0..6_000).map(|index| generate(13, index)) {
        let run = Run::of(&call.image, [call.request]);
        let entries = &run.answers[0].references;
        let set = entries.iter().position(|entry| entry.kind == ReferenceKind::KeySet);
        let keys_set = entries.iter().filter(|entry| entry.kind == ReferenceKind::KeySet).count();
        match call.request.first_halfword {
            0x0800..=0x08FF | 0xB213 => {
                assert!(keys_set <= 1 && run.read_whole.is_empty());
                let Some(set) = set else { continue };
                let before = &entries[set - 1];
                assert_eq!((before.kind, before.key), (ReferenceKind::KeyConsulted, entries[set].key));
                read[usize::from(call.request.first_halfword == 0xB213)] += 1;
            }
            0x0900..=0x09FF => {
                assert_eq!(keys_set, 0);
                assert!(run.read_whole.iter().eq(&run.consulted.keys) && run.read_whole.len() <= 1);
                assert_eq!(run.part(), run.read_whole);
                read[2] += run.read_whole.len();
            }
            _ => assert!(keys_set == 0 && run.read_whole.is_empty()),
        }
    }
    assert!(read.iter().all(|&times| times > 100), "{read:?}");
}

#[test]
fn pairs_complete_store_and_set_keys_in_both_lists() {
    let (mut calls, mut completed, mut shared, mut switches) = (0, 0, 0, 0);
    let (mut stored, mut set) = ([0, 0], [0, 0]);
    for index in 0..PAIRS {
        let pair = pair(index);
        let alone = pair.alone();
        calls += pair.order.len();
        completed += alone[0].completed() + alone[1].completed();
        for (list, run) in alone.iter().enumerate() {
            stored[list] += run.changed.bytes.len();
            set[list] += run.changed.keys.len();
        }
        shared += usize::from(!alone[0].consulted.bytes.is_disjoint(&alone[1].consulted.bytes));
        switches += pair.switches();
        assert!(pair.switches() >= 2);
        assert_eq!(pair.order.iter().filter(|&&list| list == 0).count(), pair.lists[0].len());
        assert_eq!(pair.order.iter().filter(|&&list| list == 1).count(), pair.lists[1].len());
    }
    assert!(100 * completed > 75 * calls, "{completed} of {calls}");
    assert!(stored.iter().all(|&bytes| bytes > 10 * PAIRS as usize), "{stored:?}");
    assert!(set.iter().all(|&keys| keys > PAIRS as usize / 2), "{set:?}");
    // Bytes that both lists read and neither stores.
    assert!(shared > PAIRS as usize / 20, "{shared}");
    assert!(switches > 3 * PAIRS as usize, "{switches}");
}

/// Blocks in neither part whose reference bit was zero: read by one list, by both; and those where it was one.
#[test]
fn reference_bits_in_neither_part_are_put_to_the_test() {
    let (mut by_one, mut by_both, mut was_one, mut untouched) = (0, 0, 0, 0);
    for index in 0..PAIRS {
        let pair = pair(index);
        let (alone, keys) = (pair.alone(), pair.image.key_bytes());
        let parts = &alone[0].part() | &alone[1].part();
        for number in (0..keys.len()).filter(|&number| !parts.contains(&(number as u32))) {
            let set = |run: &Run| run.keys[number] & 0x04 != 0;
            match (keys[number] & 0x04 != 0, set(&alone[0]), set(&alone[1])) {
                (true, _, _) => was_one += 1,
                (false, true, true) => by_both += 1,
                (false, false, false) => untouched += 1,
                _ => by_one += 1,
            }
        }
    }
    let all = [by_one, by_both, was_one, untouched];
    assert!(all.iter().all(|&blocks| blocks > PAIRS as usize / 10), "{all:?}");
}

/// STCTL stores in block 4; STNSM in block 5, with its virtual PSW at 2C00 and its operand at 2800. Both read MICBLOK
/// (block 0, key 01) and their second halfword (block 2, key 03).
#[test]
fn two_guests_that_read_the_same_blocks() {
    let stctl =
        Setup::stctl(5, 5).word(MICBLOK + 8, 0x2C00).halfword(0x2C00, 0x0708).key(0, 0x01).key(2, 0x03);
    let stnsm = Setup::stnsm([0, 0], 0xFC).operand(0x2800);
    let lists = [vec![stctl.request(); 2], vec![stnsm.request()]];
    for order in [[0, 0, 1], [0, 1, 0], [1, 0, 0]] {
        let pair = Pair { image: stctl.image.clone(), lists: lists.clone(), order: order.into() };
        let (alone, both) = (pair.alone(), pair.interleaved());
        assert!(keep_to_their_parts(&alone));
        assert_eq!([alone[0].part(), alone[1].part()], [BTreeSet::from([4]), BTreeSet::from([5])]);
        assert_eq!(alone[0].keys, [0x05, 0, 0x07, 0, 0x06, 0, 0, 0]);
        assert_eq!(alone[1].keys, [0x05, 0, 0x07, 0, 0, 0x06, 0, 0]);
        assert_eq!(both.keys, [0x05, 0, 0x07, 0, 0x06, 0x06, 0, 0]);
        check_conclusion(&pair, &[alone[0].part(), alone[1].part()], &alone, &both);
    }
}

/// Why parts are whole blocks: STNSM, refused at step 4, reads its virtual PSW in block 3 and names no byte or key that
/// SSK of the page in block 3 names, but SSK reads the bit that was recorded there.
#[test]
fn a_read_in_the_others_part_shows() {
    let mut ssk = Setup::ssk().word(MICBLOK + 8, 0x1C00).halfword(0x1C00, 0x0708);
    ssk.guest.general_registers[4] = 0x0002_3800;
    let stnsm = Setup::stnsm([0x07, VIRTUAL_EC], 0xF8);
    let lists = [vec![ssk.request()], vec![stnsm.request()]];
    let pair = Pair { image: ssk.image.clone(), lists, order: vec![1, 0] };
    let (alone, both) = (pair.alone(), pair.interleaved());
    assert!(alone[0].consulted.bytes.is_disjoint(&alone[1].consulted.bytes));
    assert!(alone[0].consulted.keys.is_disjoint(&alone[1].consulted.keys));
    assert!(!keep_to_their_parts(&alone));
    assert_eq!(alone[0].storage[0xD18..0xD1C], [0x00, 0x00, 0x00, 0x3E]);
    assert_eq!(both.storage[0xD18..0xD1C], [0x02, 0x00, 0x00, 0x3E]);
}

/// ISK reads a key whole: another guest's fetch in that block shows in the register, though ISK changes nothing
/// there. In BC mode the key is read all the same, and the block is in the list's part.
#[test]
fn a_key_read_whole_is_in_the_list_s_part() {
    for (virtual_psw, register_3) in [(VIRTUAL_EC, 0xABCD_EFAE), (VIRTUAL_BC, 0xABCD_EFA8)] {
        // ISK of the page in block 3 (virtual key AA, key 00); STNSM, refused at step 4, has its virtual PSW there.
        let isk = Setup::isk(virtual_psw).register(4, 0x0002_3800).word(0xD18, 0x0000_00AA).key(2, 0x00);
        let isk = isk.word(0x1408, 0x1C00).halfword(0x1C00, 0x0708);
        let stnsm = Setup::stnsm([0x07, VIRTUAL_EC], 0xF8).control_register_6(0x8000_1400);
        let lists = [vec![isk.request()], vec![stnsm.request()]];
        let pair = Pair { image: isk.image.clone(), lists, order: vec![1, 0] };
        let (alone, both) = (pair.alone(), pair.interleaved());
        assert!(alone[0].changed.blocks().is_empty());
        assert_eq!(alone[0].part(), BTreeSet::from([3]));
        assert!(!keep_to_their_parts(&alone));
        let register = |answer: &Answer| answer.guest.general_registers[3];
        // AA is 10101 01 0: in EC mode the change bit, and after STNSM the reference bit too.
        assert_eq!(register(&alone[0].answers[0]), register_3 & 0xFFFF_FFFA);
        assert_eq!(register(&both.answers[1]), register_3);
    }
}

/// Two guests may both ISK one invalid page: no key is read.
#[test]
fn two_guests_insert_the_key_of_one_invalid_page() {
    let isk = Setup::isk(VIRTUAL_EC).halfword(0xC16, 0x0018);
    let pair = Pair {
        image: isk.image.clone(),
        lists: [vec![isk.request(); 2], vec![isk.request()]],
        order: vec![0, 1, 0],
    };
    let (alone, both) = (pair.alone(), pair.interleaved());
    assert!(keep_to_their_parts(&alone) && alone.iter().all(|run| run.part().is_empty()));
    check_conclusion(&pair, &[BTreeSet::new(), BTreeSet::new()], &alone, &both);
    let valid = Setup::isk(VIRTUAL_EC);
    let lists = [vec![valid.request()], vec![valid.request()]];
    let pair = Pair { image: valid.image.clone(), lists, order: vec![0, 1] };
    assert!(!keep_to_their_parts(&pair.alone()));
}

/// Both new instructions are in both lists of many pairs, ISK of one page in both lists of some.
#[test]
fn pairs_have_the_key_instructions() {
    let (mut of_isk, mut of_rrb, mut shared) = (0, 0, 0);
    for pair in (0..PAIRS).map(pair) {
        let alone = pair.alone();
        let completed = |list: usize, code: u16| {
            let calls = pair.lists[list].iter().zip(&alone[list].answers);
            calls
                .filter(|(request, answer)| {
                    request.first_halfword >> 8 == code && answer.ending.number() == 0
                })
                .count()
        };
        of_isk += completed(0, 0x09) + completed(1, 0x09);
        of_rrb += completed(0, 0xB2) + completed(1, 0xB2);
        let same = |one: &&second::Request| {
            let alike = |other: &second::Request| {
                other.first_halfword & 0xFF0F == one.first_halfword & 0xFF0F && other.guest == one.guest
            };
            one.first_halfword >> 8 == 0x09 && pair.lists[1].iter().any(alike)
        };
        shared += pair.lists[0].iter().filter(same).count();
    }
    assert!(of_isk > 150 && of_rrb > 300 && shared > 5, "{of_isk} {of_rrb} {shared}");
}

/// Without the premise the conclusion is not to be had: most pairs with a list twice show it.
#[test]
fn the_premise_is_needed() {
    let (mut premises, mut differences) = (0, 0);
    for index in 0..100 {
        let mut pair = pair(index);
        pair.lists[1] = pair.lists[0].clone();
        pair.order = [0, 1].into_iter().cycle().take(2 * pair.lists[0].len()).collect();
        let (alone, both) = (pair.alone(), pair.interleaved());
        premises += u32::from(keep_to_their_parts(&alone));
        let answers = answers_of(&pair, &both, 1);
        let same = answers.iter().zip(&alone[1].answers).all(|(one, other)| same_answer(one, other));
        differences += u32::from(!same || both.storage != alone[0].storage);
    }
    assert_eq!(premises, 0);
    assert!(differences > 10, "{differences}");
}

#[test]
fn a_pair_depends_on_seed_and_index_only() {
    assert_eq!(generate_pair(1, 2, [3, 4], 0x4000), generate_pair(1, 2, [3, 4], 0x4000));
    assert_ne!(generate_pair(1, 2, [3, 4], 0x4000), generate_pair(2, 2, [3, 4], 0x4000));
    assert_ne!(generate_pair(1, 2, [3, 4], 0x4000), generate_pair(1, 3, [3, 4], 0x4000));
}
