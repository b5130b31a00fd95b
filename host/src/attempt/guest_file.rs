//! A guest's record as text: 21 words of 8 hex digits between white space; `#` begins a comment.

use crate::record::{self, Record, WORDS};

/// The record, or what is wrong with the text and on which line.
pub fn parse(text: &[u8]) -> Result<Record, String> {
    let mut words = Vec::with_capacity(WORDS);
    for (number, line) in (1..).zip(text.split(|&byte| byte == b'\n')) {
        let code = line.split(|&byte| byte == b'#').next().unwrap_or(line);
        for word in code.split(u8::is_ascii_whitespace).filter(|word| !word.is_empty()) {
            if words.len() == WORDS {
                return Err(format!(
                    "line {number}: '{}' is one word too many, a record has 21",
                    shown(word)
                ));
            }
            words.push(
                value(word).ok_or_else(|| {
                    format!("line {number}: '{}' is not a word of 8 hex digits", shown(word))
                })?,
            );
        }
    }
    let found = words.len();
    words.try_into().map_err(|_| format!("{found} instead of 21 words: {}", record::ORDER))
}

/// The text of a record, with a comment that names the order.
pub fn text(record: &Record) -> String {
    format!("# {}\n{}\n", record::ORDER, record::lines(record).join("\n"))
}

fn value(word: &[u8]) -> Option<u32> {
    let digits = std::str::from_utf8(word).ok()?;
    let right = digits.len() == 8 && digits.bytes().all(|digit| digit.is_ascii_hexdigit());
    u32::from_str_radix(digits, 16).ok().filter(|_| right)
}

/// A word for a message: what isn't printable is escaped, and a long word is cut.
fn shown(word: &[u8]) -> String {
    let cut = &word[..word.len().min(40)];
    format!("{}{}", cut.escape_ascii(), if cut.len() < word.len() { "..." } else { "" })
}

#[cfg(test)]
mod tests {
    use super::*;

    fn words(count: usize) -> String {
        (0..count).map(|word| format!("{word:08x}\n")).collect()
    }

    #[test]
    fn words_in_any_layout() {
        let expected: Record = std::array::from_fn(|place| place as u32);
        assert_eq!(parse(words(21).as_bytes()), Ok(expected));
        assert_eq!(parse(words(21).replace('\n', "\r\n\t ").as_bytes()), Ok(expected));
        assert_eq!(parse(words(21).replace('\n', " ").as_bytes()), Ok(expected));
        assert_eq!(parse(words(21).trim_end().as_bytes()), Ok(expected));
    }

    #[test]
    fn comments_go_to_the_end_of_the_line() {
        let text = format!("# 21 words\n{}#end", words(21).replace('\n', "# 00000000 and more #\n\n"));
        assert_eq!(parse(text.as_bytes()), parse(words(21).as_bytes()));
        let mut latin_1 = words(21).into_bytes();
        latin_1.extend(b"# caf\xE9");
        assert_eq!(parse(&latin_1), parse(words(21).as_bytes()));
        assert_eq!(parse(b"00000000 #"), Err(format!("1 instead of 21 words: {}", record::ORDER)));
    }

    #[test]
    fn digits_of_both_cases() {
        let text = words(20) + "aBcDeF09";
        assert_eq!(parse(text.as_bytes()).map(|record| record[20]), Ok(0xABCD_EF09));
    }

    #[test]
    fn too_few_or_too_many() {
        assert!(parse(b"").is_err_and(|message| message.starts_with("0 instead of 21 words: PSW")));
        assert!(
            parse(words(20).as_bytes()).is_err_and(|message| message.starts_with("20 instead of 21 words: "))
        );
        let expected = "line 22: '00000015' is one word too many, a record has 21";
        assert_eq!(parse(words(22).as_bytes()), Err(expected.into()));
    }

    #[test]
    fn a_word_that_is_none_is_named_with_its_line() {
        for word in
            ["0000000", "000000000", "0000000G", "+0000000", "-0000001", "0x000000", "00_00000", "0.000000"]
        {
            let text = format!("{}{word}\n{}", words(3), words(17));
            let expected = format!("line 4: '{word}' is not a word of 8 hex digits");
            assert_eq!(parse(text.as_bytes()), Err(expected));
        }
        assert_eq!(parse(b"\n\xFF\x00 "), Err("line 2: '\\xff\\x00' is not a word of 8 hex digits".into()));
        let long = [b'0'; 100];
        assert!(parse(&long).is_err_and(|message| message.len() < 90));
    }

    #[test]
    fn what_is_written_is_read_back() {
        let record: Record = std::array::from_fn(|place| 0xF000_0001_u32.wrapping_mul(place as u32 + 1));
        let text = text(&record);
        assert_eq!(parse(text.as_bytes()), Ok(record));
        assert_eq!(text.lines().count(), 7);
        assert!(
            text.starts_with("# PSW bits 0-31, PSW bits 32-63, general registers 0-15, control registers")
        );
    }
}
