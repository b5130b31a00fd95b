//! The damaged files: every message, every kind of line, names and outputs.

use std::collections::{BTreeMap, BTreeSet};

use second::damaged::{all, Message};

#[test]
fn every_message_is_given_at_least_twice() {
    let mut times: BTreeMap<Message, u32> = BTreeMap::new();
    for case in all() {
        *times.entry(case.stopped.1).or_default() += 1;
    }
    assert_eq!(times.len(), 9);
    assert!(times.values().all(|&times| times >= 2), "{times:?}");
}

#[test]
fn names_and_files_are_different() {
    let cases = all();
    let names: BTreeSet<&str> = cases.iter().map(|case| case.name).collect();
    let files: BTreeSet<String> = cases.iter().map(|case| case.texts().0).collect();
    assert_eq!((names.len(), files.len()), (cases.len(), cases.len()));
    assert!(files.iter().all(|file| file.len() < 1_000));
}

#[test]
fn the_last_line_says_where_and_why() {
    for case in all() {
        let (stdin, stdout) = case.texts();
        let (line, message) = case.stopped;
        let last = stdout.lines().last().expect("a line");
        assert_eq!(last, format!("stopped at line {line}: {}", message.text()));
        assert_eq!(stdout.matches("stopped").count(), 1);
        // The line is in the file, or is the one that is not there.
        assert!(line <= stdin.lines().count() + 1, "{}", case.name);
    }
}

/// As many answers as there are calls before the line at which the reader stops, and the comments there.
#[test]
fn answers_before_the_damage_are_printed() {
    for case in all() {
        let (stdin, stdout) = case.texts();
        let before: Vec<&str> = stdin.lines().take(case.stopped.0 - 1).collect();
        let kinds = |kind: char| before.iter().filter(|line| line.starts_with(kind)).count();
        let comments = stdout.lines().filter(|line| line.starts_with('#')).count();
        assert_eq!(comments, kinds('#'), "{}", case.name);
        assert_eq!(stdout.lines().count(), kinds('#') + kinds('a') + 1, "{}", case.name);
    }
}

/// The messages as they were agreed.
#[test]
fn messages() {
    let texts: BTreeSet<&str> = all().iter().map(|case| case.stopped.1.text()).collect();
    let agreed = [
        "unknown kind of line",
        "the input ends here",
        "not of the form that its kind has",
        "more storage or keys than this program holds",
        "an address or key number that is not there",
        "a call before its storage and record",
        "wrong checksum: the text is damaged",
        "wrong number of calls at the end",
        "text after the end",
    ];
    assert_eq!(texts, BTreeSet::from(agreed));
}
