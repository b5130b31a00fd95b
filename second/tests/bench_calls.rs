//! The calls for a benchmark: each completes three times, with the count of document 01's list.

use std::collections::BTreeSet;

use second::bench_calls::bench_call;
use second::Instruction::{self, *};
use second::{attempt, attempt_counted, Ending};

const SIZES: [usize; 2] = [0x1_0000, 0x100_0000];

/// Counts with DAT off and on, and in how many of the sixteenths of storage the bytes named lie.
///
/// A fetch of the second halfword or of the operand byte is 2 entries (key, fetch), or 4 with segment and page
/// entry; a store test is 1, or 3. With DAT on the segment table and two page tables are further places.
const EXPECTED: [(Instruction, [u32; 2], [usize; 2]); 8] = [
    // MICCREG, register 0, second halfword, operand byte, MICVPSW, virtual PSW, store: MICBLOK, ECBLOK,
    // instruction, operand, virtual PSW.
    (SetSystemMask, [2 + 2 + 2 + 2 + 1, 2 + 4 + 4 + 2 + 1], [5, 8]),
    // MICCREG, second halfword, 16 registers, 16 tests, 16 stores: MICBLOK, instruction, ECBLOK, operand.
    (StoreControl, [1 + 2 + 16 + 16 + 16, 1 + 4 + 16 + 48 + 16], [4, 7]),
    // MICVPSW, virtual PSW, second halfword, test, two stores: MICBLOK, virtual PSW, instruction, operand.
    (StoreThenAnd, [2 + 2 + 1 + 2, 2 + 4 + 3 + 2], [4, 7]),
    (StoreThenOr, [2 + 2 + 1 + 2, 2 + 4 + 3 + 2], [4, 7]),
    // MICRSEG, segment entry, swap-table address, swap word, page entry, key consulted, key set, store:
    // MICBLOK, segment table, page table, swap table.
    (SetStorageKey, [8, 8], [4, 4]),
    // The five fields, key consulted, MICVPSW, virtual PSW: the same places and the virtual PSW.
    (InsertStorageKey, [8, 8], [5, 5]),
    // MICRSEG, second halfword, four fields, two keys, store: the same four places and the instruction; with DAT on its
    // two tables.
    (ResetReferenceBit, [1 + 2 + 4 + 2 + 1, 1 + 4 + 4 + 2 + 1], [5, 7]),
    // MICRSEG, MICCREG, two virtual control registers, second halfword, two walks with a virtual entry each: MICBLOK,
    // ECBLOK, instruction, real segment table, two real page tables, two virtual tables; with DAT on two tables more.
    (LoadRealAddress, [4 + 2 + 3 + 3, 4 + 4 + 3 + 3], [8, 10]),
];

#[test]
fn counts_as_numbers() {
    let counts = EXPECTED.map(|(_, counts, _)| counts);
    assert_eq!(counts, [[9, 13], [51, 85], [7, 11], [7, 11], [8, 8], [8, 8], [10, 12], [12, 14]]);
}

#[test]
fn each_completes_three_times() {
    for size in SIZES {
        for (instruction, counts, _) in EXPECTED {
            for dat in [false, true] {
                completes_three_times(instruction, dat, size, counts[usize::from(dat)]);
            }
        }
    }
}

fn completes_three_times(instruction: Instruction, dat: bool, size: usize, count: u32) {
    let call = bench_call(instruction, dat, size);
    let (guest, first_halfword) = (call.request.guest, call.request.first_halfword);
    assert_eq!(Instruction::of_first_halfword(first_halfword), Some(instruction));
    assert_eq!((guest.dat_on(), call.image.storage_size), (dat, size));
    let (mut storage, mut keys) = (call.image.storage(), call.image.key_bytes());
    let mut left = (storage.clone(), keys.clone());
    for number in 1..=3 {
        let answer = attempt_counted(&mut storage, &mut keys, &guest, first_halfword, call.request.expanded);
        assert_eq!((answer.ending, answer.count), (Ending::Completed, count));
        let length = if [SetStorageKey, InsertStorageKey].contains(&instruction) { 2 } else { 4 };
        assert_eq!(answer.guest.psw_32_63, guest.psw_32_63 + length);
        // The first call changes something, the others find it done.
        assert_eq!((&storage, &keys) == (&left.0, &left.1), number > 1);
        left = (storage.clone(), keys.clone());
    }
}

#[test]
fn places_are_far_apart() {
    for size in SIZES {
        for (instruction, _, places) in EXPECTED {
            for dat in [false, true] {
                let call = bench_call(instruction, dat, size);
                let named: BTreeSet<u32> =
                    call.make().references.into_iter().flat_map(|entry| entry.bytes).collect();
                let sixteenths: BTreeSet<u32> = named.iter().map(|byte| byte / (size as u32 / 16)).collect();
                assert_eq!(sixteenths.len(), places[usize::from(dat)]);
                // One of them, MICBLOK, is in the highest page.
                assert!(named.last().is_some_and(|&last| last as usize >= size - 0x1000));
            }
        }
    }
}

/// What each leaves, in 64 KiB with DAT on. The addresses are those of frames, worked out by hand.
#[test]
fn what_is_stored() {
    let after = |instruction| {
        let call = bench_call(instruction, true, SIZES[0]);
        let (mut storage, mut keys) = (call.image.storage(), call.image.key_bytes());
        let request = &call.request;
        attempt(&mut storage, &mut keys, &request.guest, request.first_halfword, request.expanded);
        (storage, keys)
    };
    // Virtual PSW at B7B0, operand at EA80.
    assert_eq!(after(SetSystemMask).0[0xB7B0..0xB7B2], [0x07, 0x08]);
    let (storage, _) = after(StoreThenAnd);
    assert_eq!((storage[0xB7B0], storage[0xEA80]), (0x04, 0x04));
    let (storage, _) = after(StoreThenOr);
    assert_eq!((storage[0xB7B0], storage[0xEA80]), (0x07, 0x07));
    // Sixteen registers from ECBLOK at 92C0.
    let (storage, _) = after(StoreControl);
    assert_eq!(storage[0xEA80..0xEAC0], storage[0x92C0..0x9300]);
    assert_eq!(storage[0xEABC..0xEAC0], [0xAF, 0xBF, 0xCF, 0xDF]);
    // Page 6 in frame A000, second block, whose key was 04; swap word at 4E20 + 8 * 6.
    let (storage, keys) = after(SetStorageKey);
    assert_eq!(keys[0xA800 / 2048], 0x38);
    assert_eq!(storage[0x4E50..0x4E54], [0x02, 0x00, 0x00, 0x3E]);
    // ISK stores nothing. RRB: key 04 loses its reference bit, which goes to backup bit 6.
    let (storage, keys) = after(InsertStorageKey);
    assert_eq!((keys[0xA800 / 2048], &storage[0x4E50..0x4E54]), (0x04, &[0; 4][..]));
    let (storage, keys) = after(ResetReferenceBit);
    assert_eq!((keys[0xA800 / 2048], &storage[0x4E50..0x4E54]), (0x00, &[0x02, 0x00, 0x00, 0x00][..]));
    // LRA stores nothing. It reads virtual entries at 3A40 + 4 * 5D and 8358 + 2 * 7.
    let call = bench_call(LoadRealAddress, true, SIZES[0]);
    let (storage, keys) = after(LoadRealAddress);
    assert_eq!(storage, call.image.storage());
    assert_eq!([0x3BB4 / 2048, 0x8366 / 2048].map(|block: usize| keys[block]), [0x04, 0x04]);
}

/// ISK inserts the reference bit of the key 04 at every call; RRB finds it at the first call only. LRA loads frame ABC
/// with byte index E38, and its condition code is 0.
#[test]
fn what_is_handed_back() {
    let three = |instruction| {
        let call = bench_call(instruction, true, SIZES[0]);
        let (mut storage, mut keys) = (call.image.storage(), call.image.key_bytes());
        [(); 3].map(|()| call.request.make(&mut storage, &mut keys).guest)
    };
    assert_eq!(three(InsertStorageKey).map(|guest| guest.general_registers[3]), [0xABCD_EF04; 3]);
    assert_eq!(three(ResetReferenceBit).map(|guest| guest.psw_0_31 >> 12 & 3), [2, 0, 0]);
    let loaded = three(LoadRealAddress).map(|guest| (guest.general_registers[3], guest.psw_0_31 >> 12 & 3));
    assert_eq!(loaded, [(0x00AB_CE38, 0); 3]);
}
