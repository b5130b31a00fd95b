//! LRA's steps and bits. Counts are those of the entries before the step that ends the call: MICRSEG, MICCREG, EXTCR0,
//! EXTCR1, the second halfword's two, then for each walk segment entry, page entry and virtual entry.

use second::fixed::{lra_bits, lra_steps, FixedList};

use Gives::*;

/// Ending and code or place; or what is loaded and the condition code.
#[derive(Clone, Copy, Debug)]
enum Gives {
    Ends(u32, u32),
    Loads(u32, u32),
}

const REFUSED: Gives = Ends(1, 2);
const ADDRESSING: Gives = Ends(1, 5);

/// 4K pages and 64K segments; the virtual segment entry is at 123910, the virtual page entry at 056D12.
const LOADED: Gives = Loads(0x00AB_CE78, 0);
const CODE_1: Gives = Loads(0x0012_3910, 1);
const CODE_2: Gives = Loads(0x0005_6D12, 2);

/// Case, what it gives, count.
type Row = (String, Gives, usize);

const PLACES: [(&str, Gives, usize); 14] = [
    ("MICBLOK outside", Ends(3, 1), 0),
    ("EXTCR0 outside", Ends(3, 3), 2),
    ("EXTCR0 across the top", Ends(3, 3), 2),
    ("EXTCR1 outside", Ends(3, 4), 3),
    ("EXTCR1 across the top", Ends(3, 4), 3),
    ("SEGPAGE outside", Ends(3, 5), 6),
    ("PAGCORE outside", Ends(3, 6), 7),
    ("virtual segment entry outside", REFUSED, 8),
    ("second SEGPAGE outside", Ends(3, 7), 9),
    ("second PAGCORE outside", Ends(3, 8), 10),
    ("virtual page entry outside", REFUSED, 11),
    // Two entries more, and the same places.
    ("DAT on, SEGPAGE outside", Ends(3, 5), 8),
    ("DAT on, second PAGCORE outside", Ends(3, 8), 12),
    ("DAT on, virtual page entry outside", REFUSED, 13),
];

/// The virtual page table is at F56D08 where it says "second real length" or "second SEGPAGE".
const ORDER: [(&str, Gives, usize); 28] = [
    // Step 1 before 2 and 4; 3 before 4 and 5; 4 before 5; 5 before 6 and 7.
    ("control register 6 bit 3, MICBLOK outside", REFUSED, 0),
    ("control register 6 bit 3, virtual format", REFUSED, 0),
    ("EXTCR0 outside, halfword outside", Ends(3, 3), 2),
    ("virtual format, EXTCR1 outside", Ends(3, 4), 3),
    ("virtual format, halfword outside", REFUSED, 4),
    ("halfword outside, virtual segment length", ADDRESSING, 4),
    ("halfword outside, real length", ADDRESSING, 4),
    // 6 before 7 and 8; 7 before 8; 9 before 10; 11 and 12 before 13.
    ("virtual segment length, real length", Loads(0x0012_3910, 3), 6),
    ("virtual segment length, SEGPAGE outside", Loads(0x0012_3910, 3), 6),
    ("SEGPAGE outside, real length", REFUSED, 6),
    ("SEGPAGE invalid, PAGCORE outside", REFUSED, 7),
    ("SEGPAGE too short", REFUSED, 7),
    ("PAGCORE invalid, virtual segment invalid", REFUSED, 8),
    ("virtual segment entry outside, virtual segment invalid", REFUSED, 8),
    // 13 before 14, 15 and 17; 14 before 15 and 17; 15 before 16 and 17; 16 before 17.
    ("virtual segment invalid, virtual segment format", CODE_1, 9),
    ("virtual segment invalid, virtual page length", CODE_1, 9),
    ("virtual segment invalid, second SEGPAGE outside", CODE_1, 9),
    ("virtual segment format, virtual page length", REFUSED, 9),
    ("virtual segment format, second SEGPAGE outside", REFUSED, 9),
    ("virtual page length, second real length", Loads(0x00F5_6D12, 3), 9),
    ("virtual page length, second SEGPAGE outside", Loads(0x00F5_6D12, 3), 9),
    ("second real length", REFUSED, 9),
    ("second SEGPAGE outside, length 1", REFUSED, 9),
    // 18 before 19 and 22; 21 before 22; 22 before 23.
    ("second SEGPAGE too short", REFUSED, 10),
    ("second SEGPAGE invalid, second PAGCORE outside", REFUSED, 10),
    ("second SEGPAGE invalid, virtual page invalid", REFUSED, 10),
    ("virtual page entry outside, virtual page invalid", REFUSED, 11),
    ("virtual page invalid and format", CODE_2, 12),
];

fn step_1() -> Vec<Row> {
    let row = |bits: u32| {
        let (gives, count) = if bits == 0b1000 || bits == 0b1010 { (LOADED, 12) } else { (REFUSED, 0) };
        (format!("control register 6 bits 0-3 {bits:04b}"), gives, count)
    };
    (0..16).map(row).collect()
}

/// Bits 4-7 are for the format, bit 31 says that the entry is invalid; bits 29 and 30 are not looked at.
fn segment_entry_bits(entry: &str, count: usize, invalid: Gives) -> Vec<Row> {
    let row = |bit: u32| {
        let (gives, count) = match bit {
            4..=7 => (REFUSED, count),
            31 => (invalid, count),
            _ => (LOADED, 12),
        };
        (format!("{entry}, bit {bit} one"), gives, count)
    };
    [4, 5, 6, 7, 29, 30, 31].map(row).into()
}

fn page_entry_bits(entry: &str, gives: [(Gives, usize); 4]) -> Vec<Row> {
    (12..)
        .zip(gives)
        .map(|(bit, (gives, count))| (format!("{entry}, bit {bit} turned"), gives, count))
        .collect()
}

fn bits_by_hand() -> Vec<Row> {
    let mut rows = Vec::new();
    for bits in 0..32 {
        let (gives, count) = match bits {
            0b01000 => (Loads(0x0056_7E78, 0), 12),
            0b01010 => (Loads(0x009A_B678, 0), 12),
            0b10000 => (Loads(0x00AB_CE78, 0), 12),
            0b10010 => (Loads(0x0012_3E78, 0), 12),
            _ => (REFUSED, 4),
        };
        rows.push((format!("virtual control register 0 bits 8-12 {bits:05b}"), gives, count));
    }
    rows.extend((26..30).map(|bit| (format!("MICRSEG bit {bit} one"), LOADED, 12)));
    rows.push(("MICCREG bits 0-7 ones".into(), LOADED, 12));
    rows.extend((26..32).map(|bit| (format!("virtual control register 1 bit {bit} one"), LOADED, 12)));
    rows.extend(segment_entry_bits("real segment entry, first walk", 7, REFUSED));
    rows.extend(segment_entry_bits("real segment entry, second walk", 10, REFUSED));
    rows.extend(segment_entry_bits("virtual segment entry", 9, CODE_1));
    rows.extend(bits_of_page_entries());
    rows
}

fn bits_of_page_entries() -> Vec<Row> {
    let mut rows = Vec::new();
    // 4K: bit 12 invalid, 13 and 14 format.
    let real = |count| [(REFUSED, count), (REFUSED, count), (REFUSED, count), (LOADED, 12)];
    // 2K: bit 12 is of the frame, 13 invalid, 14 format. The other frame has zeros: of a segment entry length 0 and
    // page table 000000, of a page entry frame 000.
    let with_bit_12 =
        |gives: (Gives, usize), count| [gives, (REFUSED, count), (REFUSED, count), (LOADED, 12)];
    rows.extend(page_entry_bits("real 4K page entry, first walk", real(8)));
    rows.extend(page_entry_bits(
        "real 2K page entry, first walk",
        with_bit_12((Loads(0x0000_000A, 3), 9), 8),
    ));
    rows.extend(page_entry_bits("real 4K page entry, second walk", real(11)));
    let frame_0 = (Loads(0x0000_0E78, 0), 12);
    rows.extend(page_entry_bits("real 2K page entry, second walk", with_bit_12(frame_0, 11)));
    rows.extend(page_entry_bits(
        "virtual 4K page entry",
        [(CODE_2, 12), (REFUSED, 12), (REFUSED, 12), (LOADED, 12)],
    ));
    // 5678 becomes 5670; its address is 056D1E.
    rows.extend(page_entry_bits(
        "virtual 2K page entry",
        [
            (Loads(0x0056_7678, 0), 12),
            (Loads(0x0005_6D1E, 2), 12),
            (REFUSED, 12),
            (Loads(0x0056_7E78, 0), 12),
        ],
    ));
    rows
}

/// LRA 3,...: register 3 and the condition code, which is 1 before, are set on completion only.
fn check(lists: &[FixedList], prefix: &str, rows: &[Row]) {
    assert_eq!(lists.len(), rows.len());
    for (list, (case, gives, count)) in lists.iter().zip(rows) {
        let call = &list.calls[0];
        assert_eq!((call.mnemonic(), &call.case), ("LRA", &format!("{prefix}: {case}")));
        let (mut storage, mut keys) = (list.image.storage(), list.image.key_bytes());
        let answer = call.request.make(&mut storage, &mut keys);
        let mut record = call.request.guest;
        let ending = match *gives {
            Ends(number, code_or_place) => (number, code_or_place),
            Loads(address, code) => {
                record.general_registers[3] = address;
                record.psw_0_31 = record.psw_0_31 & 0xFFFF_CFFF | code << 12;
                record.psw_32_63 += 4;
                (0, 0)
            }
        };
        let given = (answer.ending.number(), answer.ending.code_or_step());
        assert_eq!((given, answer.count()), (ending, *count), "{case}");
        assert_eq!(answer.guest, record, "{case}");
        assert!(storage == list.image.storage(), "{case}");
    }
}

#[test]
fn the_step_that_comes_first_decides() {
    let mut rows = step_1();
    rows.extend(PLACES.iter().chain(&ORDER).map(|&(case, gives, count)| (case.into(), gives, count)));
    check(&lra_steps(), "step", &rows);
}

#[test]
fn each_bit_is_what_it_is() {
    check(&lra_bits(), "bit", &bits_by_hand());
}
