//! The guest's record as the library takes it: 21 words.

use second::Guest;

/// PSW bits 0-31, PSW bits 32-63, general registers 0-15, control registers 0, 1 and 6.
pub type Record = [u32; WORDS];

pub const WORDS: usize = 21;

/// The order of the words, for messages and files.
pub const ORDER: &str = "PSW bits 0-31, PSW bits 32-63, general registers 0-15, control registers 0, 1 and 6";

/// The second program's record as words.
pub fn of_guest(guest: &Guest) -> Record {
    let mut record = [0; WORDS];
    record[0] = guest.psw_0_31;
    record[1] = guest.psw_32_63;
    record[2..18].copy_from_slice(&guest.general_registers);
    record[18] = guest.control_register_0;
    record[19] = guest.control_register_1;
    record[20] = guest.control_register_6;
    record
}

/// PSW bits 40-63.
pub fn instruction_address(record: &Record) -> u32 {
    record[1] & 0x00FF_FFFF
}

/// PSW bits 18-19.
pub fn condition_code(record: &Record) -> u32 {
    record[0] >> 12 & 3
}

/// The words of a line, where the record is written: PSW, general registers in fours, control registers.
const LINES: [usize; 6] = [2, 4, 4, 4, 4, 3];

/// The record in six lines of words.
pub fn lines(record: &Record) -> [String; 6] {
    let mut rest = record.as_slice();
    LINES.map(|length| {
        let (line, after) = rest.split_at(length);
        rest = after;
        let words: Vec<String> = line.iter().map(|word| format!("{word:08X}")).collect();
        words.join(" ")
    })
}

/// What a word of the record is.
pub fn name(place: usize) -> String {
    match place {
        0 => "PSW bits 0-31".into(),
        1 => "PSW bits 32-63".into(),
        2..=17 => format!("general register {}", place - 2),
        18 => "control register 0".into(),
        19 => "control register 1".into(),
        _ => "control register 6".into(),
    }
}

#[cfg(test)]
mod tests {
    use super::*;

    #[test]
    fn words_stand_in_the_order_of_the_c_entry() {
        let guest = Guest {
            psw_0_31: 100,
            psw_32_63: 101,
            general_registers: std::array::from_fn(|number| 102 + number as u32),
            control_register_0: 118,
            control_register_1: 119,
            control_register_6: 120,
        };
        assert_eq!(of_guest(&guest).to_vec(), (100..121).collect::<Vec<u32>>());
    }

    #[test]
    fn names_of_words() {
        let names: Vec<String> = (0..WORDS).map(name).collect();
        assert_eq!(names[..3], ["PSW bits 0-31", "PSW bits 32-63", "general register 0"]);
        assert_eq!(
            names[17..],
            ["general register 15", "control register 0", "control register 1", "control register 6"]
        );
    }

    #[test]
    fn six_lines() {
        let record: Record = std::array::from_fn(|place| 0xABCD_EF00 + place as u32);
        let lines = lines(&record);
        assert_eq!(lines[0], "ABCDEF00 ABCDEF01");
        assert_eq!(lines[1], "ABCDEF02 ABCDEF03 ABCDEF04 ABCDEF05");
        assert_eq!(lines[5], "ABCDEF12 ABCDEF13 ABCDEF14");
    }

    #[test]
    fn condition_code_is_bits_18_and_19() {
        let mut record = [0; WORDS];
        for (word, code) in [(0, 0), (0x0000_1000, 1), (0x0000_2000, 2), (0xFFFF_FFFF, 3), (0xFFFF_CFFF, 0)] {
            record[0] = word;
            assert_eq!(condition_code(&record), code);
        }
    }

    #[test]
    fn instruction_address_is_bits_40_to_63() {
        let mut record = [0xFFFF_FFFF; WORDS];
        record[1] = 0xAB01_2345;
        assert_eq!(instruction_address(&record), 0x01_2345);
    }
}
