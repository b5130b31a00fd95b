//! Attempts that don't complete: the ending is said, the status is 4, and no file is touched, but keys where
//! reference bits were recorded.

use crate::case::{isk, lra, record, rrb, ssk, ssm, storage, text, Case, Snapshot, MICCREG, SECOND_HALFWORD};

/// A key in which something is recorded: the number of its block, its value before, and after.
type Recorded = (usize, u8, u8);

/// The run's first two lines, after making sure that this was recorded and nothing else was changed.
fn ending(case: &Case, recorded: &[Recorded]) -> (String, String) {
    let (before, mut keys) = (case.snapshot(), case.read("keys"));
    let run = case.run();
    assert_eq!((run.status, run.messages.as_str()), (Some(4), ""), "{}", run.output);
    let lines: Vec<&str> = run.output.lines().collect();
    let [ending, references, next, ref changes @ ..] = lines[..] else {
        panic!("three lines and more: {}", run.output);
    };
    let address = format!("{:06X}", case.record()[1] & 0xFF_FFFF);
    assert_eq!(next, format!("next instruction address {address}"));
    assert_eq!(changes, change_lines(recorded));
    for &(block, old, new) in recorded {
        assert_eq!(std::mem::replace(&mut keys[block], new), old);
    }
    assert_eq!(case.read("keys"), keys);
    let others = |mut files: Snapshot| {
        files.retain(|file| recorded.is_empty() || file.0 != "keys");
        files
    };
    assert_eq!(others(case.snapshot()), others(before), "nothing else is touched");
    (ending.into(), references.into())
}

fn change_lines(recorded: &[Recorded]) -> Vec<String> {
    let line = |&(block, old, new): &Recorded| {
        let (first, last) = (block * 0x800, block * 0x800 + 0x7FF);
        format!("key of block {block} ({first:06X}-{last:06X}): {old:02X} -> {new:02X}")
    };
    match recorded {
        [] => vec!["nothing changed".into()],
        _ => recorded.iter().map(line).collect(),
    }
}

/// The ending, and once more: what was recorded has stayed, so that now nothing changes.
fn expect(case: &Case, ending_words: &str, references: u32, recorded: &[Recorded]) {
    let expected = (format!("ending {ending_words}"), format!("references {references}"));
    assert_eq!(ending(case, recorded), expected);
    assert_eq!(ending(case, &[]), expected);
}

/// A case whose record has one word altered.
fn altered(case: Case, place: usize, value: u32) -> Case {
    let mut record: [u32; 21] = case.record().try_into().expect("21 words");
    record[place] = value;
    case.write("guest", text(&record).as_bytes());
    case
}

#[test]
fn interruptions() {
    let refused = altered(ssm(0x07), 20, 0xC000_0400);
    expect(&refused, "1 program interruption, code 2 privileged operation", 0, &[]);
    // PSW key 1, operand's block 4 with access bits 2 and fetch protection. Fetched are MICCREG and virtual
    // register 0, in block 0, and the second halfword, in block 2.
    let protected = altered(ssm(0x07), 0, 0x0019_0000);
    protected.write("keys", &[0, 0, 0, 0, 0x28, 0, 0, 0]);
    let recorded = [(0, 0x00, 0x04), (2, 0x00, 0x04)];
    expect(&protected, "1 program interruption, code 4 protection", 5, &recorded);
    let outside = altered(ssm(0x07), 2 + 2, 0x0000_4000);
    expect(&outside, "1 program interruption, code 5 addressing", 4, &recorded);
}

#[test]
fn translation() {
    // STCTL with DAT on, 4K pages and 64K segments, table at 003000 with length 0; instruction at 101000.
    let dat = |control_0: u32, instruction: u32| {
        let mut record = record();
        record[0] = 0x0409_0000;
        record[1] = instruction;
        record[18] = control_0;
        record[19] = 0x0000_3000;
        // Segment 0: page table at 003400, of length 0; its page 1 is invalid.
        let places: [(usize, &[u8]); 3] =
            [MICCREG, (0x3000, &[0x00, 0x00, 0x34, 0x00]), (0x3402, &[0x00, 0x08])];
        Case::new("B600", &storage(0x4000, &places), &record)
    };
    // MICCREG is in block 0, the segment table in 6.
    let (field, table) = ((0, 0x00, 0x04), (6, 0x00, 0x04));
    let segment = dat(0x0080_0000, 0x10_1000);
    expect(&segment, "1 program interruption, code 16 segment translation, at 101002", 1, &[field]);
    let page = dat(0x0080_0000, 0x00_1000);
    expect(&page, "1 program interruption, code 17 page translation, at 001002", 2, &[field, table]);
    let format = dat(0x0000_0000, 0x00_1000);
    expect(&format, "1 program interruption, code 18 translation specification", 1, &[field]);
}

#[test]
fn expanded_assist() {
    // The fields are in block 0, the second halfword in 2, the operand in 4.
    let recorded = [(0, 0x00, 0x04), (2, 0x00, 0x04), (4, 0x00, 0x04)];
    // Installed, and switched on by bit 6 of control register 6.
    let refused = "1 program interruption, code 2 privileged operation";
    for (installed, control_6, ending) in [
        (true, 0x8200_0400, "2 handed to the expanded assist"),
        (true, 0x8000_0400, refused),
        (true, 0xBD00_0400, refused),
        (false, 0x8200_0400, refused),
        (false, 0x8000_0400, refused),
    ] {
        let mut case = altered(ssm(0x84), 20, control_6);
        case.expanded = installed;
        expect(&case, ending, 8, &recorded);
    }
}

#[test]
fn not_in_storage() {
    let field = altered(ssm(0x07), 20, 0x8000_4000);
    expect(&field, "3 control field or key block not in storage, step 2", 0, &[]);
    let key_block = ssk();
    let mut storage = key_block.read("storage");
    storage[0xC17] = 0x40; // frame 004, which begins at 004000
    key_block.write("storage", &storage);
    // MICRSEG is in block 0, the four items of the tables in 1.
    let recorded = [(0, 0x00, 0x04), (1, 0x00, 0x04)];
    expect(&key_block, "3 control field or key block not in storage, step 11", 5, &recorded);
    // The same of ISK, in the place that it has among what is tried; and of RRB, after the second halfword in block 2.
    for (case, count, more) in [(isk(), 5, None), (rrb(), 7, Some((2, 0x00, 0x04)))] {
        let mut storage = case.read("storage");
        storage[0xC17] = 0x40;
        case.write("storage", &storage);
        let recorded: Vec<Recorded> = recorded.into_iter().chain(more).collect();
        expect(&case, "3 control field or key block not in storage, place 6", count, &recorded);
    }
    // LRA: the real page table of segment 0 at 004000, after four fields, the second halfword and the segment entry.
    let case = lra();
    let mut storage = case.read("storage");
    storage[0x802..0x804].copy_from_slice(&[0x40, 0x00]);
    case.write("storage", &storage);
    let recorded = [(0, 0x00, 0x04), (1, 0x00, 0x04), (2, 0x00, 0x04)];
    expect(&case, "3 control field or key block not in storage, place 6", 7, &recorded);
}

#[test]
fn the_other_bits_of_a_key_stay() {
    let case = ssm(0x84);
    case.write("keys", &[0xF3, 0x11, 0x28, 0x11, 0x04, 0x11, 0x11, 0x13]);
    let run = case.run();
    // Fetched from blocks 0, 2 and 4, of which the last has its reference bit.
    let expected = "ending 1 program interruption, code 2 privileged operation\n\
                    references 8\n\
                    next instruction address 001000\n\
                    key of block 0 (000000-0007FF): F3 -> F7\n\
                    key of block 2 (001000-0017FF): 28 -> 2C\n";
    assert_eq!((run.status, run.output.as_str(), run.messages.as_str()), (Some(4), expected, ""));
    assert_eq!(case.read("keys"), [0xF7, 0x11, 0x2C, 0x11, 0x04, 0x11, 0x11, 0x13]);
}

#[test]
fn a_store_test_records_its_table_fetches_alone() {
    // STCTL of register 5 to 012000, with DAT on, 4K pages and 64K segments. Segment 0, with the instruction:
    // page table at 003400; segment 1: at 003800.
    let places: [(usize, &[u8]); 6] = [
        MICCREG,
        SECOND_HALFWORD,
        (0x3000, &[0xF0, 0x00, 0x34, 0x00, 0xF0, 0x00, 0x38, 0x00]),
        (0x3402, &[0x00, 0x10]), // page 1: frame 001
        (0x3804, &[0x00, 0x20]), // page 2: frame 002
        (0x514, &[1, 2, 3, 4]),
    ];
    let mut record = record();
    record[0] = 0x0419_0000;
    record[2 + 2] = 0x0001_1FF0;
    (record[18], record[19]) = (0x0080_0000, 0x0000_3000);
    let case = Case::new("B655", &storage(0x4000, &places), &record);
    case.write("keys", &[0, 0, 0x10, 0, 0x20, 0, 0, 0]);
    // MICCREG, block 0; segment entry and page entry, both 6, key and fetch of the second halfword, 2; register
    // 5, block 0; segment entry, 6, page entry, 7, and key of the operand, 4, whose access bits are not 1.
    let recorded = [(0, 0x00, 0x04), (2, 0x10, 0x14), (6, 0x00, 0x04), (7, 0x00, 0x04)];
    expect(&case, "1 program interruption, code 4 protection", 9, &recorded);
}

#[test]
fn low_address_protection() {
    // STCTL of registers 5 and 6 to FFFFFC and 000000 in 16 MiB, with bit 3 of control register 0 one.
    let storage = storage(0x100_0000, &[MICCREG, SECOND_HALFWORD]);
    let mut record = record();
    record[2 + 2] = 0x00FF_FFEC;
    record[18] = 0x1000_0000;
    let case = Case::new("B656", &storage, &record);
    case.write("keys", &[0x10; 0x2000]);
    // MICCREG, key and fetch of the second halfword, both registers, and the first word's key; not the second's.
    let recorded = [(0, 0x10, 0x14), (2, 0x10, 0x14)];
    expect(&case, "1 program interruption, code 4 protection", 6, &recorded);
}

#[test]
fn bad_calls() {
    expect(&altered(ssm(0x07), 0, 0x0008_0000), "9 PSW bit 12 or bit 15 is zero", 0, &[]);
    expect(&altered(ssm(0x07), 1, 0x0000_1001), "12 instruction address is odd", 0, &[]);
    let mut case = ssm(0x07);
    case.first = "8100";
    expect(&case, "13 operation code is none of the eight", 0, &[]);
}

#[test]
fn sizes() {
    let size = "10 storage is not a multiple of 2,048 bytes from 2,048 to 16,777,216";
    for bytes in [0, 1, 2_047, 2_049, 16_779_264] {
        let case = Case::new("8000", &vec![0; bytes], &record());
        expect(&case, size, 0, &[]);
    }
    for keys in [0, 7, 9] {
        let case = ssm(0x07);
        case.write("keys", &vec![0; keys]);
        expect(&case, "11 number of keys is not storage / 2,048", 0, &[]);
    }
}
