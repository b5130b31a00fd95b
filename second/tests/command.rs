//! The commands and the usage message.

use std::process::{Command, Output};

fn second(arguments: &[&str]) -> Output {
    Command::new(env!("CARGO_BIN_EXE_second")).args(arguments).output().expect("the program runs")
}

#[test]
fn wrong_arguments_give_usage_and_status_2() {
    for arguments in [
        &[][..],
        &["help"],
        &["edges", "more"],
        &["report", "--seed"],
        &["report", "--seed", "x"],
        &["report", "--calls", "-1"],
        &["report", "--other", "1"],
        &["report", "7"],
        &["report", "--large"],
        &["report", "--out", "."],
        &["edges", "--large", "--large"],
        &["edges", "--seed", "1"],
        &["vectors"],
        &["vectors", "--out"],
        &["vectors", "--out", ".", "--calls", "many"],
        &["damage"],
        &["damage", "--out", ".", "--seed", "1"],
        &["trail", "more"],
        &["trail", "--large"],
        &["trail", "--calls", "8"],
        &["trail", "--seed", "1"],
        &["trail", "--out"],
        &["trail", "--out", "/no/such", "--seed", "1"],
        &["trail", "--out", "/no/such", "--large"],
    ] {
        let output = second(arguments);
        assert_eq!(output.status.code(), Some(2), "{arguments:?}");
        assert!(output.stdout.is_empty());
        assert!(String::from_utf8_lossy(&output.stderr).starts_with("usage: second"));
    }
}

#[test]
fn edges_prints_one_line_each() {
    for (arguments, edges) in
        [(&["edges"][..], second::edges::small()), (&["edges", "--large"], second::edges::large())]
    {
        let output = second(arguments);
        assert_eq!(output.status.code(), Some(0));
        let text = String::from_utf8_lossy(&output.stdout).into_owned();
        let lines: Vec<String> = edges.iter().map(|edge| edge.line()).collect();
        assert_eq!(text.lines().collect::<Vec<_>>(), lines);
    }
}

#[test]
fn edge_lines_have_their_form() {
    let text = String::from_utf8_lossy(&second(&["edges"]).stdout).into_owned();
    let line = "SSM   (*) EC, old 04, new 07 | ending 0 completed | count 9 | next 001004 | \
                bytes: 000600: 04 -> 07; keys: 0: 00 -> 06, 2: 00 -> 04, 4: 00 -> 04";
    assert!(text.lines().any(|one| one == line));
    let text = String::from_utf8_lossy(&second(&["edges", "--large"]).stdout).into_owned();
    let line = "STCTL storage one block over 16 MiB | ending 10 storage size | count 0 | next 001000 | \
                bytes: none; keys: none";
    assert!(text.lines().any(|one| one == line));
}

/// A new directory below the build's own.
fn new_directory(name: &str) -> String {
    let path = format!("{}/{name}", env!("CARGO_TARGET_TMPDIR"));
    let _ = std::fs::remove_dir_all(&path);
    std::fs::create_dir_all(&path).expect("a directory for the test");
    path
}

#[test]
fn too_few_calls_and_no_directory_give_status_1() {
    let directory = new_directory("refused");
    for (arguments, message) in [
        (
            &["vectors", "--calls", "1999", "--out", &directory][..],
            "second: a set has at least 2000 calls, not 1999\n",
        ),
        (
            &["vectors", "--large", "--calls", "49", "--out", &directory],
            "second: a set has at least 50 calls, not 49\n",
        ),
        (&["vectors", "--out", "/no/such"], "second: no such directory: /no/such\n"),
        (&["damage", "--out", "/no/such"], "second: no such directory: /no/such\n"),
    ] {
        let output = second(arguments);
        assert_eq!(output.status.code(), Some(1), "{arguments:?}");
        assert!(output.stdout.is_empty());
        assert_eq!(String::from_utf8_lossy(&output.stderr), message);
    }
    assert_eq!(std::fs::read_dir(&directory).expect("the directory").count(), 0);
}

#[test]
fn vectors_are_the_same_for_the_same_seed_only() {
    let write = |name: &str, seed: &str| {
        let directory = new_directory(name);
        let output = second(&["vectors", "--seed", seed, "--calls", "2000", "--out", &directory]);
        assert_eq!(output.status.code(), Some(0));
        let read = |file: &str| std::fs::read(format!("{directory}/{file}")).expect("a file was written");
        (read("stdin"), read("stdout"), output.stdout)
    };
    let first = write("seed-5", "5");
    assert_eq!(first, write("seed-5-again", "5"));
    let other = write("seed-6", "6");
    assert!(first.0 != other.0 && first.1 != other.1 && first.2 != other.2);
    assert!(first.2.starts_with(b"seed 5: ") && first.1.ends_with(b"\n2000 calls\n"));
}

#[test]
fn damage_writes_every_case() {
    let directory = new_directory("damage");
    assert_eq!(second(&["damage", "--out", &directory]).status.code(), Some(0));
    for case in second::damaged::all() {
        let read = |kind: &str| {
            std::fs::read_to_string(format!("{directory}/{}.{kind}", case.name)).expect("a file")
        };
        assert_eq!((read("stdin"), read("stdout")), case.texts());
    }
}

#[test]
fn report_is_the_same_for_the_same_seed() {
    let arguments = ["report", "--seed", "3", "--calls", "300"];
    let first = second(&arguments);
    assert_eq!(first.status.code(), Some(0));
    assert!(String::from_utf8_lossy(&first.stdout).starts_with("300 calls, "));
    assert_eq!(first.stdout, second(&arguments).stdout);
}

#[test]
fn trail_prints_the_eight_calls_alone() {
    let output = second(&["trail"]);
    assert_eq!(output.status.code(), Some(0));
    assert!(output.stderr.is_empty());
    assert_eq!(String::from_utf8_lossy(&output.stdout), format!("{}\n", second::eight_calls::text()));
}

/// Twice over: what the file held before does not stay.
#[test]
fn trail_out_writes_the_file_and_prints_nothing() {
    let path = format!("{}/trail", new_directory("trail"));
    for before in [None, Some(vec![0xEE; 1_000])] {
        if let Some(bytes) = before {
            std::fs::write(&path, bytes).expect("a file for the test");
        }
        let output = second(&["trail", "--out", &path]);
        assert_eq!(output.status.code(), Some(0));
        assert!(output.stdout.is_empty() && output.stderr.is_empty());
        assert_eq!(std::fs::read(&path).expect("a file was written"), second::eight_calls::trail_file());
    }
}

#[test]
fn trail_out_where_no_file_can_be_gives_status_1() {
    let directory = new_directory("trail-refused");
    for path in [directory.as_str(), "/no/such/trail"] {
        let output = second(&["trail", "--out", path]);
        assert_eq!(output.status.code(), Some(1), "{path}");
        assert!(output.stdout.is_empty());
        assert!(String::from_utf8_lossy(&output.stderr).starts_with(&format!("second: {path}: ")));
    }
}
