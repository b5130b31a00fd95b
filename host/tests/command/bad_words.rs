//! A wrong command line: what is wrong, the usage, status 2, and nothing on standard output.

use crate::case::{ssm, vma};

fn refused(words: &[&str], message: &str, usage: &str) {
    let run = vma(words);
    assert_eq!((run.status, run.output.as_str()), (Some(2), ""), "{words:?}");
    assert!(run.messages.starts_with(&format!("vma: {message}\nusage: {usage}")), "{}", run.messages);
}

#[test]
fn no_such_command() {
    refused(&[], "no command is given", "vma demo\n       vma attempt");
    refused(&["atempt"], "there is no command 'atempt'", "vma demo\n       vma attempt");
    refused(&["--quick"], "there is no command '--quick'", "vma demo");
}

#[test]
fn commands_with_words_they_do_not_know() {
    refused(&["demo", "all"], "'all' isn't known here", "vma demo\n");
    let usage = "vma bench [--quick | --check]\n";
    refused(&["bench", "--quick", "5"], "'5' isn't known here", usage);
    refused(&["bench", "--quick", "--quick"], "--quick is given twice", usage);
    refused(&["bench", "--check", "--check"], "--check is given twice", usage);
    refused(&["bench", "--quick", "--check"], "--quick and --check exclude each other", usage);
}

#[test]
fn fuzz() {
    let usage = "vma fuzz SEED N [--largest BYTES]\n";
    refused(&["fuzz"], "SEED is missing", usage);
    refused(&["fuzz", "1"], "N is missing", usage);
    refused(&["fuzz", "1", "2", "3"], "'3' isn't known here", usage);
    refused(&["fuzz", "1", "--all"], "'--all' isn't known here", usage);
    refused(&["fuzz", "-1", "2"], "'-1' isn't known here", usage);
    let number = "is a decimal number below 2^64, which";
    refused(&["fuzz", "one", "2"], &format!("SEED {number} 'one' is not"), usage);
    refused(&["fuzz", "1", "+2"], &format!("N {number} '+2' is not"), usage);
    refused(&["fuzz", "1", ""], &format!("N {number} '' is not"), usage);
    refused(
        &["fuzz", "18446744073709551616", "2"],
        &format!("SEED {number} '18446744073709551616' is not"),
        usage,
    );
    refused(&["fuzz", "1", "2", "--largest"], "--largest needs a word after it", usage);
    refused(&["fuzz", "1", "2", "--largest", "2047"], "--largest is 2048 at least, which 2047 is not", usage);
    refused(&["fuzz", "1", "2", "--largest", "1M"], &format!("--largest {number} '1M' is not"), usage);
}

#[test]
fn trail() {
    let usage = "vma trail show FILE [--registers]\n";
    refused(&["trail"], "no command is given", usage);
    refused(&["trail", "shew"], "there is no command 'shew'", usage);
    refused(&["trail", "shew", "--help"], "there is no command 'shew'", usage);
    refused(&["trail", "show"], "FILE is missing", usage);
    refused(&["trail", "show", "--registers"], "FILE is missing", usage);
    refused(&["trail", "show", "one", "two"], "FILE is given twice", usage);
    refused(&["trail", "show", "one", "--register"], "'--register' isn't known here", usage);
    refused(&["trail", "show", "--registers", "one", "--registers"], "--registers is given twice", usage);
}

#[test]
fn attempt() {
    let case = ssm(0x07);
    let before = case.snapshot();
    let words = case.words();
    let words: Vec<&str> = words.iter().map(String::as_str).collect();
    let usage = "vma attempt --storage FILE --keys FILE --guest FILE --first HEX [--expanded]\n";
    for (place, option) in
        [(1, "--storage FILE"), (3, "--keys FILE"), (5, "--guest FILE"), (7, "--first HEX")]
    {
        let without = [&words[..place], &words[place + 2..]].concat();
        refused(&without, &format!("{option} is missing"), usage);
    }
    refused(&words[..8], "--first needs a word after it", usage);
    refused(&[&words[..], &["--storage", "x"]].concat(), "--storage is given twice", usage);
    refused(&[&words[..], &["--expand"]].concat(), "'--expand' isn't known here", usage);
    for first in ["", "800", "80000", "80g0", "+800", "0x80"] {
        let with = [&words[..8], &[first]].concat();
        refused(&with, &format!("--first is a halfword of 4 hex digits, which '{first}' is not"), usage);
    }
    assert_eq!(case.snapshot(), before);
}
