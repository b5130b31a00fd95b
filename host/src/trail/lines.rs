//! A trail in words: its records, and how many calls are in it and how many are not.

use std::io::{self, Write};

use second::Instruction;

use super::form::{TrailRecord, Trailer};
use crate::answer::Answer;
use crate::record;
use crate::sides::references;
use crate::words::{ending, grouped};

/// What `record::lines` has in its lines.
const REGISTERS: [&str; 6] = [
    "PSW",
    "general registers 0 to 3",
    "general registers 4 to 7",
    "general registers 8 to 11",
    "general registers 12 to 15",
    "control registers 0, 1, 6",
];

/// The line of a record.
pub fn write_record(output: &mut impl Write, record: &TrailRecord) -> io::Result<()> {
    let TrailRecord { sequence, guest_number, first_halfword, answer, next_address, .. } = record;
    writeln!(
        output,
        "record {sequence}: guest {guest_number}, {} {first_halfword:04X}, {}, ending {}{}; {}; \
         instruction at {:06X}, next {next_address:06X}",
        operation(*first_halfword),
        if record.expanded_flag == 0 { "no expanded assist" } else { "expanded assist installed" },
        ending(*answer, *first_halfword),
        misplaced(*answer),
        references(answer.count),
        record::instruction_address(&record.before),
    )
}

/// PSW and registers before the call, in lines of their own.
pub fn write_registers(output: &mut impl Write, record: &TrailRecord) -> io::Result<()> {
    let lines = record::lines(&record.before);
    REGISTERS.iter().zip(lines).try_for_each(|(title, words)| writeln!(output, "    {title:26}  {words}"))
}

/// The last line. Calls that are missing from the trail can't be overlooked in it.
pub fn conclusion(trailer: &Trailer) -> String {
    let held =
        format!("{} record{} held", grouped(trailer.held.into()), if trailer.held == 1 { "" } else { "s" });
    match (turned_away(trailer), trailer.held) {
        (Some(words), _) => format!("{held}. {words}."),
        (None, 0) => format!("{held}, none turned away: no call was written down in this trail."),
        (None, _) => format!("{held}, none turned away: the trail was never full."),
    }
}

/// The calls that are not in the trail, if there are any.
pub fn turned_away(trailer: &Trailer) -> Option<String> {
    let full = "TURNED AWAY: THE TRAIL WAS FULL, AND";
    match trailer.turned_away {
        0 => None,
        1 => Some(format!("1 MORE CALL WAS {full} THAT CALL IS NOT IN IT")),
        u32::MAX => {
            Some(format!("{} OR MORE CALLS WERE {full} THEY ARE NOT IN IT", grouped(u32::MAX.into())))
        }
        number => Some(format!("{} MORE CALLS WERE {full} THEY ARE NOT IN IT", grouped(number.into()))),
    }
}

/// The mnemonic, for one of the eight instructions; else the operation code, which has two bytes where the first is B2.
fn operation(first_halfword: u16) -> String {
    match Instruction::of_first_halfword(first_halfword) {
        Some(instruction) => instruction.mnemonic().into(),
        None if first_halfword >> 8 == 0xB2 => format!("operation {first_halfword:04X}"),
        None => format!("operation {:02X}", first_halfword >> 8),
    }
}

/// A code, step or address that the ending doesn't have, and that should be zero.
fn misplaced(answer: Answer) -> String {
    let mut marks = String::new();
    if answer.code_or_step != 0 && !answer.has_code_or_step() {
        marks += &format!(" [code or step is {}, and should be zero]", answer.code_or_step);
    }
    if answer.logical_address != 0 && !answer.has_logical_address() {
        marks += &format!(" [translation address is {:06X}, and should be zero]", answer.logical_address);
    }
    marks
}

#[cfg(test)]
mod tests {
    use super::*;

    fn record() -> TrailRecord {
        TrailRecord {
            sequence: 2,
            guest_number: 9,
            first_halfword: 0xB655,
            expanded_flag: 0,
            answer: Answer { ending: 1, code_or_step: 17, count: 12, logical_address: 0x2000 },
            next_address: 0x1000,
            before: std::array::from_fn(|place| 0x0F00_1000 + place as u32),
            zeros: [0; 20],
        }
    }

    fn line(record: &TrailRecord) -> String {
        let mut line = Vec::new();
        write_record(&mut line, record).expect("memory takes it");
        String::from_utf8(line).expect("text")
    }

    /// From the ending to the count.
    fn ending_of(answer: Answer) -> String {
        let line = line(&TrailRecord { answer, ..record() });
        let start = line.find("ending ").expect("an ending");
        line[start..].split(';').next().expect("an ending").into()
    }

    #[test]
    fn all_that_a_record_says() {
        let expected =
            "record 2: guest 9, STCTL B655, no expanded assist, ending 1 program interruption, code 17 \
             page translation, at 002000; 12 references; instruction at 001001, next 001000\n";
        assert_eq!(line(&record()), expected);
        let answer = Answer { ending: 0, code_or_step: 0, count: 1, logical_address: 0 };
        let other = TrailRecord {
            sequence: u32::MAX,
            guest_number: u32::MAX,
            expanded_flag: 1,
            answer,
            next_address: 0xFF00_1234,
            ..record()
        };
        let expected =
            "record 4294967295: guest 4294967295, STCTL B655, expanded assist installed, ending 0 \
             completed; 1 reference; instruction at 001001, next FF001234\n";
        assert_eq!(line(&other), expected);
    }

    #[test]
    fn instructions_by_their_operation_code() {
        let halfwords = [0x80FF, 0xB600, 0xAC12, 0xADFF, 0x0834, 0x0934, 0xB213, 0xB130];
        assert_eq!(halfwords.map(operation), ["SSM", "STCTL", "STNSM", "STOSM", "SSK", "ISK", "RRB", "LRA"]);
        let others = [0x0A00, 0xB212, 0xB200, 0x0012].map(operation);
        assert_eq!(others, ["operation 0A", "operation B212", "operation B200", "operation 00"]);
    }

    #[test]
    fn what_an_ending_does_not_have_is_marked() {
        let answer = |ending, code_or_step, logical_address| {
            ending_of(Answer { ending, code_or_step, count: 0, logical_address })
        };
        let code = "[code or step is 258, and should be zero]";
        let address = "[translation address is 002000, and should be zero]";
        assert_eq!(answer(0, 258, 0), format!("ending 0 completed {code}"));
        assert_eq!(answer(0, 0, 0x2000), format!("ending 0 completed {address}"));
        assert_eq!(
            answer(2, 258, 0x2000),
            format!("ending 2 handed to the expanded assist {code} {address}")
        );
        let field = "ending 3 control field or key block not in storage, step";
        assert_eq!(answer(3, 11, 0), format!("{field} 11"));
        assert_eq!(answer(3, 16, 0x2000), format!("{field} 16 {address}"));
        let interruption = "ending 1 program interruption, code";
        assert_eq!(answer(1, 5, 0x2000), format!("{interruption} 5 addressing {address}"));
        assert_eq!(answer(1, 16, 0x8100_2000), format!("{interruption} 16 segment translation, at 81002000"));
        assert_eq!(answer(1, 16, 0), format!("{interruption} 16 segment translation, at 000000"));
        assert_eq!(answer(1, 273, 0), format!("{interruption} 273 (no interruption has this code)"));
    }

    #[test]
    fn registers_with_their_numbers() {
        let mut lines = Vec::new();
        write_registers(&mut lines, &record()).expect("memory takes it");
        let expected = "    PSW                         0F001000 0F001001\n    \
                        general registers 0 to 3    0F001002 0F001003 0F001004 0F001005\n    \
                        general registers 4 to 7    0F001006 0F001007 0F001008 0F001009\n    \
                        general registers 8 to 11   0F00100A 0F00100B 0F00100C 0F00100D\n    \
                        general registers 12 to 15  0F00100E 0F00100F 0F001010 0F001011\n    \
                        control registers 0, 1, 6   0F001012 0F001013 0F001014\n";
        assert_eq!(String::from_utf8(lines).as_deref(), Ok(expected));
    }

    #[test]
    fn calls_in_the_trail_and_calls_that_are_not() {
        let conclusion =
            |held, turned_away| conclusion(&Trailer { distance: 128 * held, held, turned_away, version: 1 });
        let full = "TURNED AWAY: THE TRAIL WAS FULL, AND";
        assert_eq!(
            conclusion(0, 0),
            "0 records held, none turned away: no call was written down in this trail."
        );
        assert_eq!(conclusion(1, 0), "1 record held, none turned away: the trail was never full.");
        assert_eq!(conclusion(5_000, 0), "5,000 records held, none turned away: the trail was never full.");
        assert_eq!(
            conclusion(5, 1),
            format!("5 records held. 1 MORE CALL WAS {full} THAT CALL IS NOT IN IT.")
        );
        assert_eq!(
            conclusion(1, 4_294_967_294),
            format!("1 record held. 4,294,967,294 MORE CALLS WERE {full} THEY ARE NOT IN IT.")
        );
        assert_eq!(
            conclusion(0, 4_294_967_295),
            format!("0 records held. 4,294,967,295 OR MORE CALLS WERE {full} THEY ARE NOT IN IT.")
        );
    }
}
