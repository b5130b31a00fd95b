//! RRB step 4 and LRA step 5: access exceptions as themselves, with the entries made up to them after those of the
//! words before: MICRSEG for RRB; MICRSEG, MICCREG and virtual control registers 0 and 1 for LRA.

use second::fixed::second_halfwords;

/// Case, code, logical address carried (that of the halfword), entries of the access that are made.
const CASES: [(&str, u32, u32, usize); 10] = [
    ("wrong format", 18, 0, 0),
    ("segment table of length 0", 16, 0x1C_1002, 0),
    ("segment invalid", 16, 0x1C_1002, 1),
    ("segment entry bit 7 one", 18, 0, 1),
    ("page table of length 0", 17, 0x1C_1002, 1),
    ("page table not in storage", 5, 0, 1),
    ("page invalid", 17, 0x1C_1002, 2),
    ("page entry of wrong format", 18, 0, 2),
    ("frame not in storage", 5, 0, 2),
    ("protected", 4, 0, 3),
];

/// Entries before the second halfword's, and those of a completed call with DAT off.
const INSTRUCTIONS: [(&str, usize, usize); 2] = [("RRB", 1, 10), ("LRA", 4, 12)];

#[test]
fn each_code_in_each_format() {
    let mut found = 0;
    for (mnemonic, before, all) in INSTRUCTIONS {
        let mut check_case = |case: String, expected| {
            check(mnemonic, &format!("second halfword: {case}"), expected);
            found += 1;
        };
        for format in ["2K, 64K", "2K, 1M", "4K, 64K", "4K, 1M"] {
            for (case, code, logical_address, entries) in CASES {
                // For 1M segments there is no such test: it completes, as "in storage" does.
                let none = format.ends_with("1M") && case == "segment table of length 0";
                let expected =
                    if none { (0, 0, 0, all + 2) } else { (1, code, logical_address, before + entries) };
                check_case(format!("{format}, {case}"), expected);
            }
            check_case(format!("{format}, in storage"), (0, 0, 0, all + 2));
        }
        check_case("DAT off, in storage".into(), (0, 0, 0, all));
        check_case("DAT off, not in storage".into(), (1, 5, 0, before));
        check_case("DAT off, protected".into(), (1, 4, 0, before + 1));
    }
    assert_eq!(second_halfwords().len(), found);
}

/// Ending, code, logical address and count. On completion RRB's condition code is 3 (key FB, virtual key FD), LRA's 0
/// with ABCE78 in register 3.
fn check(mnemonic: &str, case: &str, expected: (u32, u32, u32, usize)) {
    let lists = second_halfwords();
    let wanted = |list: &&second::fixed::FixedList| {
        (list.calls[0].mnemonic(), list.calls[0].case.as_str()) == (mnemonic, case)
    };
    let list = lists.iter().find(wanted).expect(case);
    let request = list.calls[0].request;
    let answer = request.make(&mut list.image.storage(), &mut list.image.key_bytes());
    let ending = answer.ending;
    let given = (ending.number(), ending.code_or_step(), ending.logical_address(), answer.count());
    assert_eq!(given, expected, "{mnemonic} {case}");
    let mut record = request.guest;
    if expected.0 == 0 {
        record.psw_32_63 += 4;
        if mnemonic == "RRB" {
            record.psw_0_31 |= 0x0000_3000;
        } else {
            record.psw_0_31 &= 0xFFFF_CFFF;
            record.general_registers[3] = 0x00AB_CE78;
        }
    }
    assert_eq!(answer.guest, record, "{mnemonic} {case}");
}
