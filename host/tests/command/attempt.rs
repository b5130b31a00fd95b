//! Attempts that complete.

use crate::case::{isk, lra, record, rrb, ssk, ssm, storage, Case, MICCREG, MICVPSW, SECOND_HALFWORD};

/// The instruction address moved on, and nothing else in the record.
fn moved_on(before: &[u32; 21], next: u32) -> Vec<u32> {
    let mut after = before.to_vec();
    after[1] = next;
    after
}

#[test]
fn set_system_mask() {
    let case = ssm(0x07);
    let mut storage = case.read("storage");
    let run = case.run();
    // MICCREG, virtual register 0; key and fetch of the second halfword, and of the operand; MICVPSW, virtual
    // PSW; the store. The fields and the store are in block 0, the halfword in 2, the operand in 4.
    let expected = "ending 0 completed\n\
                    references 9\n\
                    next instruction address 001004\n\
                    storage 000600: 04 -> 07\n\
                    key of block 0 (000000-0007FF): 00 -> 06\n\
                    key of block 2 (001000-0017FF): 00 -> 04\n\
                    key of block 4 (002000-0027FF): 00 -> 04\n\
                    record PSW bits 32-63: 00001000 -> 00001004\n";
    assert_eq!((run.status, run.output.as_str(), run.messages.as_str()), (Some(0), expected, ""));
    storage[0x600] = 0x07;
    assert_eq!(case.read("storage"), storage);
    assert_eq!(case.read("keys"), [6, 0, 4, 0, 4, 0, 0, 0]);
    assert_eq!(case.record(), moved_on(&record(), 0x1004));
    assert_eq!(case.names(), ["guest", "keys", "storage"]);
}

#[test]
fn store_control() {
    let registers: Vec<u8> = (0..64).map(|byte| 0x80 + byte).collect();
    let places: [(usize, &[u8]); 3] = [MICCREG, SECOND_HALFWORD, (0x500, &registers)];
    let mut storage = storage(0x4000, &places);
    let case = Case::new("B6E1", &storage, &record());
    let run = case.run();
    // MICCREG; key and fetch of the second halfword; four registers, four keys, four stores. MICCREG and the
    // registers are in block 0, the halfword in 2, the stores in 4.
    let expected = "ending 0 completed\n\
                    references 15\n\
                    next instruction address 001004\n\
                    storage 002000: 00 00 00 00 00 00 00 00 -> B8 B9 BA BB BC BD BE BF\n\
                    storage 002008: 00 00 00 00 00 00 00 00 -> 80 81 82 83 84 85 86 87\n\
                    key of block 0 (000000-0007FF): 00 -> 04\n\
                    key of block 2 (001000-0017FF): 00 -> 04\n\
                    key of block 4 (002000-0027FF): 00 -> 06\n\
                    record PSW bits 32-63: 00001000 -> 00001004\n";
    assert_eq!((run.status, run.output.as_str()), (Some(0), expected));
    storage[0x2000..0x2008].copy_from_slice(&registers[56..]);
    storage[0x2008..0x2010].copy_from_slice(&registers[..8]);
    assert_eq!(case.read("storage"), storage);
    assert_eq!(case.read("keys"), [4, 0, 4, 0, 6, 0, 0, 0]);
    assert_eq!(case.record(), moved_on(&record(), 0x1004));
}

#[test]
fn store_then_and_system_mask() {
    let places: [(usize, &[u8]); 3] = [MICVPSW, SECOND_HALFWORD, (0x600, &[0x07, 0x08])];
    let mut storage = storage(0x4000, &places);
    let case = Case::new("acfc", &storage, &record());
    let run = case.run();
    // MICVPSW, virtual PSW; key and fetch of the second halfword; key of the operand; two stores. The stores are
    // in blocks 4 and 0.
    let expected = "ending 0 completed\n\
                    references 7\n\
                    next instruction address 001004\n\
                    storage 000600: 07 -> 04\n\
                    storage 002000: 00 -> 07\n\
                    key of block 0 (000000-0007FF): 00 -> 06\n\
                    key of block 2 (001000-0017FF): 00 -> 04\n\
                    key of block 4 (002000-0027FF): 00 -> 06\n\
                    record PSW bits 32-63: 00001000 -> 00001004\n";
    assert_eq!((run.status, run.output.as_str()), (Some(0), expected));
    (storage[0x600], storage[0x2000]) = (0x04, 0x07);
    assert_eq!(case.read("storage"), storage);
    assert_eq!(case.read("keys"), [6, 0, 4, 0, 6, 0, 0, 0]);
}

#[test]
fn store_then_or_system_mask_while_an_interruption_is_pending() {
    let places: [(usize, &[u8]); 3] = [(0x408, &[0x80, 0, 6, 0]), SECOND_HALFWORD, (0x600, &[0x07, 0x08])];
    let case = Case::new("AD03", &storage(0x4000, &places), &record());
    let run = case.run();
    assert_eq!(run.status, Some(0));
    // The byte stored in block 0 is the one that was there, and its store is recorded all the same.
    let expected = "\nstorage 002000: 00 -> 07\n\
                    key of block 0 (000000-0007FF): 00 -> 06\n\
                    key of block 2 (001000-0017FF): 00 -> 04\n\
                    key of block 4 (002000-0027FF): 00 -> 06\n\
                    record";
    assert!(run.output.contains(expected), "{}", run.output);
}

#[test]
fn set_storage_key() {
    let case = ssk();
    let mut storage = case.read("storage");
    let before: [u32; 21] = case.record().try_into().expect("21 words");
    let run = case.run();
    // MICRSEG, segment entry, swap-table address, swap word, page entry; key consulted and set; the store.
    // MICRSEG is in block 0, all else that is fetched or stored in 1; nothing in block 2, whose key is set.
    let expected = "ending 0 completed\n\
                    references 8\n\
                    next instruction address 001002\n\
                    storage 000D18: 00 00 00 -> 08 00 3E\n\
                    key of block 0 (000000-0007FF): 00 -> 04\n\
                    key of block 1 (000800-000FFF): 00 -> 06\n\
                    key of block 2 (001000-0017FF): 04 -> 38\n\
                    record PSW bits 32-63: 00001000 -> 00001002\n";
    assert_eq!((run.status, run.output.as_str()), (Some(0), expected));
    storage[0xD18..0xD1C].copy_from_slice(&[0x08, 0x00, 0x3E, 0x00]);
    assert_eq!(case.read("storage"), storage);
    assert_eq!(case.read("keys"), [4, 6, 0x38, 0, 0, 0, 0, 0]);
    assert_eq!(case.record(), moved_on(&before, 0x1002));
}

#[test]
fn insert_storage_key() {
    let case = isk();
    let storage = case.read("storage");
    let mut expected_record = case.record();
    let run = case.run();
    // MICRSEG, segment entry, swap-table address, swap word, page entry; key consulted; MICVPSW, virtual PSW.
    // Bits 0-4 of AD are A8; of its bits 5-6, 10, and those of 53, 01, the OR is 11.
    let expected = "ending 0 completed\n\
                    references 8\n\
                    next instruction address 001002\n\
                    key of block 0 (000000-0007FF): 00 -> 04\n\
                    key of block 1 (000800-000FFF): 00 -> 04\n\
                    record PSW bits 32-63: 00001000 -> 00001002\n\
                    record general register 3: ABCDEF3F -> ABCDEFAE\n";
    assert_eq!((run.status, run.output.as_str()), (Some(0), expected));
    assert_eq!(case.read("storage"), storage);
    assert_eq!(case.read("keys"), [4, 4, 0x53, 0, 0, 0, 0, 0]);
    expected_record[1] = 0x1002;
    expected_record[2 + 3] = 0xABCD_EFAE;
    assert_eq!(case.record(), expected_record);
}

#[test]
fn reset_reference_bit() {
    let case = rrb();
    let mut expected_record = case.record();
    let run = case.run();
    // MICRSEG; the second halfword's key and fetch, in block 2; four items of the tables, in block 1; key consulted
    // and set; the store. Real bits 01 and virtual bits 10: code 3. Bit 5 of the swap word is one, bit 21 zero.
    let expected = "ending 0 completed\n\
                    references 10\n\
                    next instruction address 001004\n\
                    storage 000D18: 50 C3 FD -> 54 C3 F9\n\
                    key of block 0 (000000-0007FF): 00 -> 04\n\
                    key of block 1 (000800-000FFF): 00 -> 06\n\
                    key of block 2 (001000-0017FF): 00 -> 04\n\
                    record PSW bits 0-31: 00091A00 -> 00093A00\n\
                    record PSW bits 32-63: 00001000 -> 00001004\n";
    assert_eq!((run.status, run.output.as_str()), (Some(0), expected));
    assert_eq!(case.read("keys"), [4, 6, 4, 0, 0xFB, 0, 0, 0]);
    (expected_record[0], expected_record[1]) = (0x0009_3A00, 0x1004);
    assert_eq!(case.record(), expected_record);
}

#[test]
fn load_real_address() {
    let case = lra();
    let storage = case.read("storage");
    let mut expected_record = case.record();
    let run = case.run();
    // MICRSEG, MICCREG, both virtual control registers; the second halfword's key and fetch, in block 2; twice two
    // real entries, in block 1, and a virtual one, in block 4.
    let expected = "ending 0 completed\n\
                    references 12\n\
                    next instruction address 001004\n\
                    key of block 0 (000000-0007FF): 00 -> 04\n\
                    key of block 1 (000800-000FFF): 00 -> 04\n\
                    key of block 2 (001000-0017FF): 00 -> 04\n\
                    key of block 4 (002000-0027FF): 00 -> 04\n\
                    record PSW bits 0-31: 00091A00 -> 00090A00\n\
                    record PSW bits 32-63: 00001000 -> 00001004\n\
                    record general register 3: ABCDEF3F -> 00789345\n";
    assert_eq!((run.status, run.output.as_str()), (Some(0), expected));
    assert_eq!(case.read("storage"), storage);
    (expected_record[0], expected_record[1], expected_record[2 + 3]) = (0x0009_0A00, 0x1004, 0x0078_9345);
    assert_eq!(case.record(), expected_record);
}

#[test]
fn sixteen_mebibytes_with_an_operand_that_goes_round() {
    let registers: Vec<u8> = (0..64).map(|byte| 0x80 + byte).collect();
    let places: [(usize, &[u8]); 3] = [MICCREG, SECOND_HALFWORD, (0x500, &registers)];
    let mut storage = storage(0x100_0000, &places);
    let mut record = record();
    record[2 + 2] = 0x00FF_FFEC; // and displacement 010: FFFFFC
    let case = Case::new("B667", &storage, &record);
    let run = case.run();
    let expected = "ending 0 completed\n\
                    references 9\n\
                    next instruction address 001004\n\
                    storage 000000: 00 00 00 00 -> 9C 9D 9E 9F\n\
                    storage FFFFFC: 00 00 00 00 -> 98 99 9A 9B\n\
                    key of block 0 (000000-0007FF): 00 -> 06\n\
                    key of block 2 (001000-0017FF): 00 -> 04\n\
                    key of block 8191 (FFF800-FFFFFF): 00 -> 06\n\
                    record PSW bits 32-63: 00001000 -> 00001004\n";
    assert_eq!((run.status, run.output.as_str()), (Some(0), expected));
    storage[0xFF_FFFC..].copy_from_slice(&registers[24..28]);
    storage[..4].copy_from_slice(&registers[28..32]);
    assert!(case.read("storage") == storage);
}

#[test]
fn the_guest_file_is_written_in_the_form_in_which_it_is_read() {
    let case = ssk();
    assert_eq!(case.run().status, Some(0));
    let expected = "# PSW bits 0-31, PSW bits 32-63, general registers 0-15, control registers 0, 1 and 6\n\
                    00090000 00001002\n\
                    00000000 00000000 5A001FF0 ABCDEF3F\n\
                    5A023000 00000000 00000000 00000000\n\
                    00000000 00000000 00000000 00000000\n\
                    00000000 00000000 00000000 00000000\n\
                    00000000 00000000 80000400\n";
    assert_eq!(String::from_utf8(case.read("guest")).as_deref(), Ok(expected));
    let run = case.run();
    assert_eq!(run.status, Some(0));
    // The key found now is the one that was set; its reference and change bits are zero. In the other keys all
    // that is recorded was so before.
    let expected = "ending 0 completed\n\
                    references 8\n\
                    next instruction address 001004\n\
                    record PSW bits 32-63: 00001002 -> 00001004\n";
    assert_eq!(run.output, expected);
}
