//! The endings in words, number first; and numbers.

use second::Instruction;

use crate::answer::Answer;

/// An ending with all that it carries: `1 program interruption, code 16 segment translation, at 012345`. What ending 3
/// carries is a step or a place, by the instruction, whose first halfword is given.
pub fn ending(answer: Answer, first_halfword: u16) -> String {
    let kind = kind(answer.ending, answer.code_or_step);
    match answer.ending {
        3 => format!("{kind}, {} {}", step_or_place(first_halfword), answer.code_or_step),
        _ if answer.has_logical_address() => format!("{kind}, at {:06X}", answer.logical_address),
        _ => kind,
    }
}

fn step_or_place(first_halfword: u16) -> &'static str {
    match Instruction::of_first_halfword(first_halfword) {
        Some(
            Instruction::InsertStorageKey | Instruction::ResetReferenceBit | Instruction::LoadRealAddress,
        ) => "place",
        _ => "step",
    }
}

/// An ending without its step or place, and without its logical address.
pub fn kind(number: u8, code: u16) -> String {
    let meaning = match number {
        0 => "completed",
        1 => return format!("1 program interruption, code {code} {}", interruption(code)),
        2 => "handed to the expanded assist",
        3 => "control field or key block not in storage",
        9 => "PSW bit 12 or bit 15 is zero",
        10 => "storage is not a multiple of 2,048 bytes from 2,048 to 16,777,216",
        11 => "number of keys is not storage / 2,048",
        12 => "instruction address is odd",
        13 => "operation code is none of the eight",
        _ => "(no ending has this number)",
    };
    format!("{number} {meaning}")
}

fn interruption(code: u16) -> &'static str {
    match code {
        2 => "privileged operation",
        4 => "protection",
        5 => "addressing",
        16 => "segment translation",
        17 => "page translation",
        18 => "translation specification",
        _ => "(no interruption has this code)",
    }
}

/// A number with its noun: `1 byte`, `2 bytes`.
pub fn counted(number: u64, noun: &str) -> String {
    format!("{number} {noun}{}", if number == 1 { "" } else { "s" })
}

/// A number for people: `4,294,967,295`.
pub fn grouped(number: u64) -> String {
    let digits = number.to_string();
    let mut text = String::new();
    for (place, digit) in digits.chars().enumerate() {
        if place > 0 && (digits.len() - place) % 3 == 0 {
            text.push(',');
        }
        text.push(digit);
    }
    text
}

#[cfg(test)]
mod tests {
    use super::*;

    fn words(ending: u8, code_or_step: u16, logical_address: u32) -> String {
        super::ending(Answer { ending, code_or_step, count: 85, logical_address }, 0x0834)
    }

    #[test]
    fn interruptions() {
        assert_eq!(words(1, 2, 0), "1 program interruption, code 2 privileged operation");
        assert_eq!(words(1, 4, 0), "1 program interruption, code 4 protection");
        assert_eq!(words(1, 5, 0), "1 program interruption, code 5 addressing");
        assert_eq!(words(1, 16, 0x1_2345), "1 program interruption, code 16 segment translation, at 012345");
        assert_eq!(words(1, 17, 0), "1 program interruption, code 17 page translation, at 000000");
        assert_eq!(words(1, 18, 0), "1 program interruption, code 18 translation specification");
    }

    #[test]
    fn other_endings() {
        assert_eq!(words(0, 0, 0), "0 completed");
        assert_eq!(words(2, 0, 0), "2 handed to the expanded assist");
        assert_eq!(words(3, 11, 0), "3 control field or key block not in storage, step 11");
        assert_eq!(words(9, 0, 0), "9 PSW bit 12 or bit 15 is zero");
        assert_eq!(words(10, 0, 0), "10 storage is not a multiple of 2,048 bytes from 2,048 to 16,777,216");
        assert_eq!(words(11, 0, 0), "11 number of keys is not storage / 2,048");
        assert_eq!(words(12, 0, 0), "12 instruction address is odd");
        assert_eq!(words(13, 0, 0), "13 operation code is none of the eight");
    }

    #[test]
    fn places_of_two_instructions() {
        let missing = Answer { ending: 3, code_or_step: 6, count: 5, logical_address: 0 };
        let ending = |first| super::ending(missing, first);
        for first in [0x0934, 0xB213, 0xB130] {
            assert_eq!(ending(first), "3 control field or key block not in storage, place 6");
        }
        for first in [0x8000, 0xB601, 0xACFF, 0xAD00, 0x0834, 0xB212, 0x0A00] {
            assert_eq!(ending(first), "3 control field or key block not in storage, step 6");
        }
    }

    #[test]
    fn numbers() {
        assert_eq!([0, 1, 2].map(|number| counted(number, "byte")), ["0 bytes", "1 byte", "2 bytes"]);
        let grouped = [0, 999, 1_000, 123_456, 4_294_967_295].map(grouped);
        assert_eq!(grouped, ["0", "999", "1,000", "123,456", "4,294,967,295"]);
    }

    #[test]
    fn numbers_that_no_rule_gives_are_said_to_be_so() {
        assert_eq!(words(4, 0, 0), "4 (no ending has this number)");
        assert_eq!(words(255, 0, 0), "255 (no ending has this number)");
        assert_eq!(words(1, 3, 0), "1 program interruption, code 3 (no interruption has this code)");
        assert_eq!(words(1, 256 + 16, 7), "1 program interruption, code 272 (no interruption has this code)");
        assert_eq!(words(3, 65_535, 0), "3 control field or key block not in storage, step 65535");
    }
}
