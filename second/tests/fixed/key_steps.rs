//! The steps of ISK and RRB. Counts are those of the entries before the step that ends the call: for ISK MICRSEG,
//! segment entry, swap-table address, swap word, page entry, key, MICVPSW; for RRB the second halfword's two come
//! after MICRSEG.

use second::fixed::key_steps;

/// Case, ending and code or place, count.
type Row = (&'static str, (u32, u32), usize);

const REFUSED: (u32, u32) = (1, 2);
const ADDRESSING: (u32, u32) = (1, 5);

const ISK: [Row; 18] = [
    ("MICBLOK outside", (3, 1), 0),
    ("segment table outside", (3, 2), 1),
    ("swap address outside", (3, 3), 2),
    ("swap word outside", (3, 4), 3),
    ("page table outside", (3, 5), 4),
    ("frame outside", (3, 6), 5),
    ("MICVPSW outside", (3, 7), 6),
    ("page invalid, MICVPSW outside", (3, 6), 5),
    ("virtual PSW outside", (3, 8), 7),
    ("page invalid, virtual PSW outside", (3, 7), 6),
    // Step 1 before 2; 8 before 10 and 13; 6 before 12; 10 before 11, 12 and 13; 11 before 12 and 13.
    ("R2 bit 31, MICBLOK outside", REFUSED, 0),
    ("swap word outside, page entry 0FF2", (3, 4), 3),
    ("swap word outside, virtual PSW outside", (3, 4), 3),
    ("segment invalid, MICVPSW outside", REFUSED, 2),
    ("page entry 0FF2, virtual PSW outside", REFUSED, 5),
    ("page entry 0FF2, MICVPSW outside", REFUSED, 5),
    ("frame outside, MICVPSW outside", (3, 6), 5),
    ("frame outside, virtual PSW outside", (3, 6), 5),
];

const RRB: [Row; 18] = [
    ("MICBLOK outside", (3, 1), 0),
    ("segment table outside", (3, 2), 3),
    ("swap address outside", (3, 3), 4),
    ("swap word outside", (3, 4), 5),
    ("page table outside", (3, 5), 6),
    ("frame outside", (3, 6), 7),
    // Step 1 before 2 and 4; 2 and 3 before 4; 4 before 5, 6, 7 and 12; 5 before 6; 9 before 11.
    ("MICBLOK outside, control register 6 bit 3", REFUSED, 0),
    ("control register 6 bit 3, halfword outside", REFUSED, 0),
    ("MICBLOK outside, halfword outside", (3, 1), 0),
    ("bit 30, halfword outside", REFUSED, 1),
    ("halfword outside, length", ADDRESSING, 1),
    ("halfword outside, segment table outside", ADDRESSING, 1),
    ("halfword outside, segment invalid", ADDRESSING, 1),
    ("length, segment table outside", REFUSED, 3),
    ("swap word outside, page entry 0FF2", (3, 4), 5),
    ("halfword outside, frame outside", ADDRESSING, 1),
    // Two entries more, and the same places.
    ("DAT on, segment table outside", (3, 2), 5),
    ("DAT on, frame outside", (3, 6), 9),
];

/// Bits 0-3: 100X for ISK, 10X0 for RRB. R2 bits 28-31 must be zeros, the operand's need not.
fn step_1() -> Vec<(String, Row)> {
    let mut list = Vec::new();
    for (mnemonic, completing, count) in [("ISK", ["1000", "1001"], 8), ("RRB", ["1000", "1010"], 10)] {
        for bits in 0..16 {
            let bits = format!("{bits:04b}");
            let passes = completing.contains(&bits.as_str());
            let (ending, count) = if passes { ((0, 0), count) } else { (REFUSED, 0) };
            let case = format!("control register 6 bits 0-3 {bits}").leak();
            list.push((mnemonic.to_string(), (&*case, ending, count)));
        }
    }
    for bit in 28..32 {
        list.push(("ISK".into(), (format!("R2 bit {bit}").leak(), REFUSED, 0)));
        list.push(("RRB".into(), (format!("operand bit {bit}").leak(), (0, 0), 10)));
    }
    list
}

#[test]
fn the_step_that_comes_first_decides() {
    let mut expected = step_1();
    expected.extend(ISK.map(|row| ("ISK".into(), row)));
    expected.extend(RRB.map(|row| ("RRB".into(), row)));
    let lists = key_steps();
    assert_eq!(lists.len(), expected.len());
    for (list, (mnemonic, (case, ending, count))) in lists.iter().zip(expected) {
        let call = &list.calls[0];
        assert_eq!((call.mnemonic(), &call.case), (mnemonic.as_str(), &format!("step: {case}")));
        let answer = call.request.make(&mut list.image.storage(), &mut list.image.key_bytes());
        let given = (answer.ending.number(), answer.ending.code_or_step());
        assert_eq!((given, answer.count()), (ending, count), "{mnemonic} {case}");
        assert_eq!(answer.guest == call.request.guest, ending != (0, 0), "{mnemonic} {case}");
    }
}
