//! The words of `vma attempt`.

use std::ffi::{OsStr, OsString};
use std::path::PathBuf;

use crate::command::{put_once, unknown, Failure, Words};

#[derive(Debug, PartialEq, Eq)]
pub struct Options {
    pub storage: PathBuf,
    pub keys: PathBuf,
    pub guest: PathBuf,
    pub first_halfword: u16,
    pub expanded: bool,
}

impl Options {
    pub fn parse(words: &[OsString]) -> Result<Options, Failure> {
        let (mut storage, mut keys, mut guest) = (None, None, None);
        let (mut first_halfword, mut expanded) = (None, None);
        let mut words = Words::new(words);
        while let Some(word) = words.next() {
            match word.to_str() {
                Some(option @ "--storage") => put_once(&mut storage, option, words.value(option)?.into())?,
                Some(option @ "--keys") => put_once(&mut keys, option, words.value(option)?.into())?,
                Some(option @ "--guest") => put_once(&mut guest, option, words.value(option)?.into())?,
                Some(option @ "--first") => {
                    put_once(&mut first_halfword, option, halfword(words.value(option)?)?)?;
                }
                Some(option @ "--expanded") => put_once(&mut expanded, option, ())?,
                _ => return Err(unknown(word)),
            }
        }
        Ok(Options {
            storage: needed(storage, "--storage FILE")?,
            keys: needed(keys, "--keys FILE")?,
            guest: needed(guest, "--guest FILE")?,
            first_halfword: needed(first_halfword, "--first HEX")?,
            expanded: expanded.is_some(),
        })
    }
}

fn needed<T>(value: Option<T>, option: &str) -> Result<T, Failure> {
    value.ok_or_else(|| Failure::Usage(format!("{option} is missing")))
}

fn halfword(word: &OsStr) -> Result<u16, Failure> {
    let digits =
        word.to_str().filter(|text| text.len() == 4 && text.bytes().all(|byte| byte.is_ascii_hexdigit()));
    digits.and_then(|digits| u16::from_str_radix(digits, 16).ok()).ok_or_else(|| {
        Failure::Usage(format!("--first is a halfword of 4 hex digits, which '{}' is not", word.display()))
    })
}

#[cfg(test)]
mod tests {
    use super::*;

    fn parse(words: &str) -> Result<Options, Failure> {
        let words: Vec<OsString> = words.split_whitespace().map(OsString::from).collect();
        Options::parse(&words)
    }

    fn message(words: &str) -> String {
        match parse(words) {
            Err(Failure::Usage(message)) => message,
            other => panic!("{words}: {other:?}"),
        }
    }

    #[test]
    fn options_in_any_order() {
        let options = parse("--first b6E1 --guest g --keys k --expanded --storage s").unwrap();
        let expected = Options {
            storage: "s".into(),
            keys: "k".into(),
            guest: "g".into(),
            first_halfword: 0xB6E1,
            expanded: true,
        };
        assert_eq!(options, expected);
        assert!(!parse("--storage s --keys k --guest g --first 8000").unwrap().expanded);
    }

    #[test]
    fn what_is_wrong_is_named() {
        assert_eq!(message(""), "--storage FILE is missing");
        assert_eq!(message("--storage s --keys k --guest g"), "--first HEX is missing");
        assert_eq!(message("--storage"), "--storage needs a word after it");
        assert_eq!(message("--keys k --keys l"), "--keys is given twice");
        assert_eq!(message("--expanded --expanded"), "--expanded is given twice");
        assert_eq!(message("--first 8000 --storge s"), "'--storge' isn't known here");
        for first in ["800", "80000", "80G0", "+800", "0x80", "80 0"] {
            let first = first.split(' ').next().unwrap();
            let expected = format!("--first is a halfword of 4 hex digits, which '{first}' is not");
            assert_eq!(message(&format!("--first {first}")), expected);
        }
    }
}
