//! Properties of every attempt, over random calls and lists of calls.

#[path = "common/recorded.rs"]
mod recorded;

use std::collections::BTreeSet;

use recorded::keys_after;
use second::generate::{generate, generate_chain, generate_undamaged};
use second::{attempt, Answer, Guest, ReferenceKind, Request};

/// What holds of every answer, given storage and keys before and after.
fn check(request: &Request, answer: &Answer, storage: (&[u8], &[u8]), keys: (&[u8], &[u8])) {
    // LRA: four words, four entries for the second halfword, three for each walk.
    assert!(answer.count() <= if request.first_halfword >> 8 == 0xB1 { 14 } else { 85 });
    assert_eq!(keys.1, keys_after(keys.0, request, &answer.references));
    if answer.ending.number() != 0 {
        assert!(storage.0 == storage.1);
        assert_eq!(answer.guest, request.guest);
        check_reference_bits(answer, keys);
        return;
    }
    let named = |kind: ReferenceKind| answer.references.iter().filter(move |entry| entry.kind == kind);
    let stored: BTreeSet<u32> =
        named(ReferenceKind::Store).flat_map(|entry| entry.bytes.iter().copied()).collect();
    for (place, _, _) in second::call::changes(storage.0, storage.1) {
        assert!(stored.contains(&place));
    }
    check_record(request, answer);
    // Every byte and key named is there.
    for entry in &answer.references {
        assert!(entry.bytes.iter().all(|&byte| (byte as usize) < storage.0.len()));
        assert!(entry.key.is_none_or(|number| (number as usize) < keys.0.len()));
        assert_eq!(entry.bytes.is_empty(), entry.key.is_some());
    }
}

/// On completion the address moves on; ISK changes bits 24-31 of register R1, RRB real PSW bits 18-19, LRA both
/// these bits and register R1, of which bits 0-7 are then zeros. Nothing else.
fn check_record(request: &Request, answer: &Answer) {
    let (before, mut record) = (request.guest, answer.guest);
    let length = if [0x08, 0x09].contains(&(request.first_halfword >> 8)) { 2 } else { 4 };
    assert_eq!(record.psw_32_63 >> 24, before.psw_32_63 >> 24);
    assert_eq!(record.psw_32_63 % 0x100_0000, (before.psw_32_63 % 0x100_0000 + length) % 0x100_0000);
    record.psw_32_63 = before.psw_32_63;
    if request.first_halfword >> 8 == 0x09 {
        let r1 = usize::from(request.first_halfword >> 4 & 15);
        let (old, new) = (before.general_registers[r1], record.general_registers[r1]);
        assert_eq!((new >> 8, new & 1), (old >> 8, 0));
        record.general_registers[r1] = old;
    }
    if request.first_halfword >> 8 == 0xB1 {
        let r1 = usize::from(request.first_halfword >> 4 & 15);
        assert!(record.general_registers[r1] < 0x100_0000);
        record.general_registers[r1] = before.general_registers[r1];
    }
    if request.first_halfword == 0xB213 || request.first_halfword >> 8 == 0xB1 {
        record.psw_0_31 = record.psw_0_31 & 0xFFFF_CFFF | before.psw_0_31 & 0x0000_3000;
    }
    assert_eq!(record, before);
}

/// Demand 1 with R-13: no bit of a key but the reference bit changes, and that is one afterwards exactly if it was one
/// or an entry touches the block.
fn check_reference_bits(answer: &Answer, keys: (&[u8], &[u8])) {
    let touched: BTreeSet<u32> =
        answer.references.iter().flat_map(|entry| entry.bytes.iter().map(|byte| byte / 2_048)).collect();
    for (number, (before, after)) in (0..).zip(keys.0.iter().zip(keys.1)) {
        assert_eq!(before & 0xFB, after & 0xFB);
        assert_eq!(after & 0x04 != 0, before & 0x04 != 0 || touched.contains(&number));
    }
}

#[test]
fn random_calls() {
    for index in 0..12_000 {
        let call = generate(7, index);
        let (storage_before, keys_before) = (call.image.storage(), call.image.key_bytes());
        let (mut storage, mut keys) = (call.image.storage(), call.image.key_bytes());
        let answer = call.request.make(&mut storage, &mut keys);
        check(&call.request, &answer, (&storage_before, &storage), (&keys_before, &keys));
    }
}

#[test]
fn chains_of_calls() {
    let mut completed = 0;
    for index in 0..600 {
        let chain = generate_chain(8, index, 6);
        let (mut storage, mut keys) = (chain.image.storage(), chain.image.key_bytes());
        for request in &chain.requests {
            let (storage_before, keys_before) = (storage.clone(), keys.clone());
            let answer = request.make(&mut storage, &mut keys);
            check(request, &answer, (&storage_before, &storage), (&keys_before, &keys));
            completed += u32::from(answer.ending.number() == 0);
        }
    }
    // 3600 calls; a chain leaves most of them complete.
    assert!((1400..3200).contains(&completed), "{completed}");
}

#[test]
fn same_seed_same_calls() {
    for index in 0..200 {
        assert_eq!(generate(5, index), generate(5, index));
    }
    assert_ne!(generate(5, 0), generate(6, 0));
    assert_ne!(generate(5, 0), generate(5, 1));
    // A call depends only on what it names: the bytes of an image are not zero and are few.
    for index in 0..200 {
        let call = generate(5, index);
        assert!(call.image.bytes.values().all(|&value| value != 0));
        assert!(call.image.bytes.len() < 400);
    }
}

#[test]
fn calls_complete_before_damage() {
    let completed =
        (0..4_000).filter(|&index| generate_undamaged(9, index).make().ending.number() == 0).count();
    assert!(completed > 3_800, "{completed} of 4000");
}

/// Bit 3 of control register 0 is one in calls that store elsewhere, and is zero where it would protect (9: see
/// `Machine::walk_step`).
#[test]
fn low_address_protection_comes_only_by_damage() {
    let mut with_bit = 0;
    for call in (0..4_000).map(|index| generate_undamaged(9, index)) {
        assert_ne!(call.make().at_walk_step, 9);
        with_bit += u32::from(call.request.guest.control_register_0 & 0x1000_0000 != 0);
    }
    assert!((1_400..2_000).contains(&with_bit), "{with_bit}");
}

/// Any sizes and any record: a numbered ending, no panic.
#[test]
fn nonsense_gets_a_number() {
    let mut state = 1u64;
    let mut next = || {
        state = state.wrapping_mul(6_364_136_223_846_793_005).wrapping_add(1_442_695_040_888_963_407);
        (state >> 32) as u32
    };
    for _ in 0..20_000 {
        let size = [0, 1, 2048, 4096, 5000, 6144][next() as usize % 6];
        let key_count = if next() % 4 == 0 { next() as usize % 5 } else { size / 2048 };
        let mut storage: Vec<u8> = (0..size).map(|_| next() as u8).collect();
        let mut keys: Vec<u8> = (0..key_count).map(|_| next() as u8).collect();
        let guest = Guest {
            psw_0_31: next() | if next() % 4 == 0 { 0 } else { 0x0009_0000 },
            psw_32_63: next() & if next() % 4 == 0 { u32::MAX } else { 0xFF00_1FFE },
            general_registers: std::array::from_fn(|_| next() & 0xFF00_1FF0),
            control_register_0: next(),
            control_register_1: next() & 0xFF00_1FFF,
            control_register_6: next() & 0x0F00_1FFF | 0x8000_0000,
        };
        let operation_code = [0x80, 0xB6, 0xAC, 0xAD, 0x08, 0x09, 0xB2, 0xB1, 0x47][next() as usize % 9];
        let second_byte = if operation_code == 0xB2 && next() % 4 != 0 { 0x13 } else { next() as u16 & 0xFF };
        let first_halfword = operation_code << 8 | second_byte;
        let answer = attempt(&mut storage, &mut keys, &guest, first_halfword, next() % 2 == 0);
        assert!([0, 1, 2, 3, 9, 10, 11, 12, 13].contains(&answer.ending.number()));
    }
}
