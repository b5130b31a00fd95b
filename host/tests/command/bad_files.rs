//! Files that can't be used: the message names the file and what is wrong, the status is 1, nothing is
//! written.

use std::fs;
use std::os::unix::fs::{symlink, PermissionsExt};

use crate::case::{record, refused_in_16_mebibytes, ssm, text, Case};

/// The message of a run that ends with status 1 and leaves every file as it was.
fn message(case: &Case) -> String {
    let before = case.snapshot();
    let run = case.run();
    assert_eq!((run.status, run.output.as_str()), (Some(1), ""), "{}", run.messages);
    assert_eq!(case.snapshot(), before, "nothing is touched");
    let message = run.messages.strip_prefix("vma: ").and_then(|text| text.strip_suffix('\n'));
    message.expect("one message").to_string()
}

/// The start of a message about one of the files.
fn about(case: &Case, name: &str) -> String {
    format!("{name} file {}: ", case.path(name).display())
}

#[test]
fn a_file_that_is_not_there() {
    for name in ["storage", "keys", "guest"] {
        let case = ssm(0x07);
        fs::remove_file(case.path(name)).expect("removed");
        assert_eq!(message(&case), about(&case, name) + "No such file or directory (os error 2)");
    }
}

#[test]
fn a_folder_or_a_device_as_a_file() {
    for name in ["storage", "keys", "guest"] {
        let case = ssm(0x07);
        fs::remove_file(case.path(name)).expect("removed");
        fs::create_dir(case.path(name)).expect("a folder");
        assert_eq!(message(&case), about(&case, name) + "is not an ordinary file");
    }
    let case = ssm(0x07);
    fs::remove_file(case.path("keys")).expect("removed");
    symlink("/dev/zero", case.path("keys")).expect("a link");
    assert_eq!(message(&case), "keys file /dev/zero: is not an ordinary file");
}

#[test]
fn a_link_to_nothing() {
    let case = ssm(0x07);
    fs::remove_file(case.path("guest")).expect("removed");
    symlink(case.path("nothing"), case.path("guest")).expect("a link");
    assert_eq!(message(&case), about(&case, "guest") + "No such file or directory (os error 2)");
}

#[test]
fn a_file_that_may_not_be_written() {
    let case = ssm(0x07);
    fs::set_permissions(case.path("keys"), fs::Permissions::from_mode(0o444)).expect("set");
    if fs::OpenOptions::new().write(true).open(case.path("keys")).is_ok() {
        return; // the superuser may write it all the same
    }
    let expected = "can't be opened for reading and writing: Permission denied (os error 13)";
    assert_eq!(message(&case), about(&case, "keys") + expected);
}

#[test]
fn a_file_that_is_too_large() {
    let large = |case: &Case, name: &str, size: u64| {
        fs::OpenOptions::new().write(true).open(case.path(name)).expect("opened").set_len(size).expect("set");
        let run = case.run();
        assert_eq!((run.status, run.output.as_str()), (Some(1), ""));
        let most = if name == "guest" { 65_536 } else { 17_825_792 };
        let expected = format!("{}has {size} bytes; more than {most} are not read", about(case, name));
        assert_eq!(run.messages, format!("vma: {expected}\n"));
        assert_eq!(fs::metadata(case.path(name)).expect("metadata").len(), size);
    };
    large(&ssm(0x07), "storage", 17_825_793);
    large(&ssm(0x07), "keys", 1 << 40);
    large(&ssm(0x07), "guest", 65_537);
}

#[test]
fn the_same_file_twice() {
    for (one, other) in [("storage", "keys"), ("storage", "guest"), ("keys", "guest")] {
        let same = |case: &Case| format!("{}is the same file as the {other} file", about(case, one));
        let linked = ssm(0x07);
        fs::remove_file(linked.path(other)).expect("removed");
        symlink(linked.path(one), linked.path(other)).expect("a link");
        assert_eq!(message(&linked), same(&linked));
        let hard = ssm(0x07);
        fs::remove_file(hard.path(other)).expect("removed");
        fs::hard_link(hard.path(one), hard.path(other)).expect("a link");
        assert_eq!(message(&hard), same(&hard));
    }
}

#[test]
fn a_file_with_the_name_of_anothers_new_contents() {
    let case = ssm(0x07);
    fs::rename(case.path("guest"), case.path("storage.new")).expect("renamed");
    symlink(case.path("storage.new"), case.path("guest")).expect("a link");
    let expected = "has the name that the storage file's new contents would have";
    let file = case.path("storage.new");
    assert_eq!(message(&case), format!("guest file {}: {expected}", file.display()));
}

#[test]
fn records_that_are_none() {
    let words = text(&record());
    let one_fewer = words.split_once('\n').expect("lines").1;
    let order = "PSW bits 0-31, PSW bits 32-63, general registers 0-15, control registers 0, 1 and 6";
    let bad: [(&[u8], &str); 8] = [
        (b"", "0 instead of 21 words: ORDER"),
        (b"# 00000000\n", "0 instead of 21 words: ORDER"),
        (one_fewer.as_bytes(), "20 instead of 21 words: ORDER"),
        (
            &[words.as_bytes(), b"12345678"].concat(),
            "line 22: '12345678' is one word too many, a record has 21",
        ),
        (&[b"0009000\n", words.as_bytes()].concat(), "line 1: '0009000' is not a word of 8 hex digits"),
        (
            &[words.as_bytes()[..18].to_vec(), b"8000000G".to_vec()].concat(),
            "line 3: '8000000G' is not a word of 8 hex digits",
        ),
        (
            &words.replace("5a001ff0", "5a001ff").into_bytes(),
            "line 5: '5a001ff' is not a word of 8 hex digits",
        ),
        (&[0xFF, 0x00, 0x7F], "line 1: '\\xff\\x00\\x7f' is not a word of 8 hex digits"),
    ];
    for (contents, expected) in bad {
        let case = ssm(0x07);
        case.write("guest", contents);
        assert_eq!(message(&case), about(&case, "guest") + &expected.replace("ORDER", order));
    }
}

/// The limit of so many blocks of 512 or 1,024 bytes on a file stops the writing of this one.
fn not_written(case: &Case, blocks: u32, name: &str) {
    let before = case.snapshot();
    let limited = format!("trap '' XFSZ; ulimit -f {blocks}; exec \"$0\" \"$@\"");
    let run = crate::case::run(
        std::process::Command::new("sh").args(["-c", &limited, crate::case::PROGRAM]).args(case.words()),
    );
    assert_eq!((run.status, run.output.as_str()), (Some(1), ""));
    let expected = format!(
        "vma: {}: can't be written: File too large (os error 27); nothing was changed\n",
        case.path(name).display()
    );
    assert_eq!(run.messages, expected);
    assert!(case.snapshot() == before);
}

#[test]
fn new_contents_that_cannot_be_written() {
    not_written(&ssm(0x07), 8, "storage.new"); // of 16 KiB
    not_written(&refused_in_16_mebibytes(), 4, "keys.new"); // of 8 KiB
}
