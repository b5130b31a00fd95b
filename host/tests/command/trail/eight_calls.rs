//! The trail of the second program's eight calls: five records, from which three calls were turned away.

use super::bytes::show;

/// The counts, by document 01. SSM: MICCREG, register 0, second halfword (2), operand (2), MICVPSW, virtual PSW,
/// and if it completes the store. STCTL of four registers: MICCREG, second halfword (2), the registers, their
/// tests, their stores; of one, with DAT on: MICCREG, second halfword (4), the register, segment entry, page
/// entry. SSK: five fields.
const LINES: &str = "\
record 0: guest 7, SSM 8000, no expanded assist, ending 0 completed; 9 references; instruction at 001000, \
next 001004
record 1: guest 7, STCTL B6E1, no expanded assist, ending 0 completed; 15 references; instruction at 001000, \
next 001004
record 2: guest 9, STCTL B655, no expanded assist, ending 1 program interruption, code 17 page translation, \
at 002000; 8 references; instruction at 001000, next 001000
record 3: guest 9, SSM 8000, expanded assist installed, ending 2 handed to the expanded assist; 8 references; \
instruction at 001000, next 001000
record 4: guest 7, SSK 0834, no expanded assist, ending 3 control field or key block not in storage, step 11; \
5 references; instruction at 001000, next 001000
5 records held. 3 MORE CALLS WERE TURNED AWAY: THE TRAIL WAS FULL, AND THEY ARE NOT IN IT.
";

#[test]
fn lines_and_status() {
    let run = show(&second::eight_calls::trail_file(), &[]);
    assert_eq!((run.status, run.output.as_str(), run.messages.as_str()), (Some(5), LINES, ""));
}
