//! Calls whose writing was cut short: the next start undoes them or finishes them.

use std::os::unix::process::ExitStatusExt;
use std::process::Command;

use crate::case::{refused_in_16_mebibytes, ssk, ssm, Case, PROGRAM};

/// The contents of the three files.
fn contents(case: &Case) -> [Vec<u8>; 3] {
    ["storage", "keys", "guest"].map(|name| case.read(name))
}

/// A completed SSK: the files before it, and after it.
fn completed() -> ([Vec<u8>; 3], [Vec<u8>; 3]) {
    let case = ssk();
    let before = contents(&case);
    assert_eq!(case.run().status, Some(0));
    (before, contents(&case))
}

/// SSK with these files left over by an earlier call.
fn with_left(left: &[(&str, &[u8])]) -> Case {
    let case = ssk();
    for (name, contents) in left {
        case.write(name, contents);
    }
    case
}

fn paths(case: &Case, names: &[&str]) -> String {
    let paths: Vec<String> = names.iter().map(|name| case.path(name).display().to_string()).collect();
    paths.join(", ")
}

/// What is said of an earlier call that is finished with these files.
fn finished(case: &Case, names: &[&str]) -> String {
    format!(
        "vma: an earlier call had happened, but was cut short before its files were all in place. It is now \
         finished, with {}. Nothing else was done: this call was not made\n",
        paths(case, names)
    )
}

#[test]
fn before_the_call_happened() {
    let (_, [storage, keys, guest]) = completed();
    let cases: [&[(&str, &[u8])]; 6] = [
        &[("storage.new", b"")],
        &[("storage.new", b""), ("keys.new", b"not whole")],
        &[("storage.new", b""), ("keys.new", &keys)],
        &[("storage.new", &storage[..100])],
        &[("storage.new", &storage), ("keys.new", b"not whole")],
        &[("storage.new", &storage), ("keys.new", &keys), ("guest.new", &guest)],
    ];
    for left in cases {
        let case = with_left(left);
        let names: Vec<&str> = left.iter().map(|file| file.0).collect();
        let run = case.run();
        let said = "an earlier call was cut short before it happened; removed what it left: ";
        assert_eq!(run.messages, format!("vma: {said}{}\n", paths(&case, &names)));
        assert_eq!(run.status, Some(0));
        assert!(run.output.starts_with("ending 0 completed\n"));
        assert_eq!(contents(&case), [storage.clone(), keys.clone(), guest.clone()], "this call is made");
        assert_eq!(case.names(), ["guest", "keys", "storage"]);
    }
}

#[test]
fn after_the_call_happened() {
    let (before, after) = completed();
    let [storage, keys, guest] = &after;
    let cases: [&[(&str, &[u8])]; 3] = [
        &[("storage", storage), ("keys.new", keys), ("guest.new", guest)],
        &[("storage", storage), ("keys", keys), ("guest.new", guest)],
        &[("storage", storage), ("keys.new", keys), ("guest", guest)],
    ];
    for left in cases {
        let case = with_left(left);
        let names: Vec<&str> = left.iter().map(|file| file.0).filter(|name| name.ends_with(".new")).collect();
        let run = case.run();
        assert_eq!((run.status, run.output.as_str(), run.messages), (Some(3), "", finished(&case, &names)));
        assert_eq!(contents(&case), after, "the earlier call alone is made");
        assert_ne!(before, after);
        assert_eq!(case.names(), ["guest", "keys", "storage"]);
        assert!(
            case.run().output.contains("\nrecord PSW bits 32-63: 00001002 -> 00001004\n"),
            "and then the next"
        );
    }
}

#[test]
fn after_a_call_happened_that_did_not_complete() {
    let case = ssm(0x84);
    let [storage, _, guest] = contents(&case);
    // Of such a call there is no more to write than the reference bits of blocks 0, 2 and 4.
    let keys = vec![4, 0, 4, 0, 4, 0, 0, 0];
    case.write("keys.new", &keys);
    let run = case.run();
    let expected = finished(&case, &["keys.new"]);
    assert_eq!((run.status, run.output.as_str(), run.messages), (Some(3), "", expected));
    assert_eq!(contents(&case), [storage, keys, guest]);
    assert_eq!(case.names(), ["guest", "keys", "storage"]);
    let run = case.run();
    assert_eq!(run.status, Some(4), "and then the next");
    assert!(run.output.ends_with("\nnothing changed\n"), "{}", run.output);
}

/// What is left is refused: this file, for this reason.
fn refused(left: &[(&str, &[u8])], name: &str, what: &str) {
    let case = with_left(left);
    let before = case.snapshot();
    let run = case.run();
    let expected = format!("vma: {}: not left by a call: {what}\n", case.path(name).display());
    assert_eq!((run.status, run.output.as_str(), run.messages), (Some(1), "", expected));
    assert_eq!(case.snapshot(), before);
}

#[test]
fn files_that_only_have_such_a_name() {
    let (_, [_, keys, guest]) = completed();
    refused(&[("keys.new", &keys[1..])], "keys.new", "it has 7 bytes, and the keys file has 8");
    let no_comment = &guest[1..];
    refused(&[("guest.new", no_comment)], "guest.new", "line 1: 'PSW' is not a word of 8 hex digits");
    let order = "PSW bits 0-31, PSW bits 32-63, general registers 0-15, control registers 0, 1 and 6";
    let empty = format!("0 instead of 21 words: {order}");
    refused(&[("keys.new", &keys), ("guest.new", b"")], "guest.new", &empty);
}

#[test]
fn a_crash_while_storage_is_written() {
    let case = ssm(0x07);
    let before = contents(&case);
    let limited = "ulimit -c 0; ulimit -f 8; exec \"$0\" \"$@\"";
    let output =
        Command::new("sh").args(["-c", limited, PROGRAM]).args(case.words()).output().expect("it starts");
    assert_eq!(output.status.signal(), Some(25), "killed for too large a file");
    assert_eq!(contents(&case), before);
    assert_eq!(case.names(), ["guest", "keys", "storage", "storage.new"]);
    let run = case.run();
    assert_eq!(run.status, Some(0));
    assert!(run.messages.starts_with("vma: an earlier call was cut short before it happened"));
    assert_eq!(case.read("storage")[0x600], 0x07);
    assert_eq!(case.names(), ["guest", "keys", "storage"]);
}

#[test]
fn a_crash_while_keys_are_written() {
    let case = refused_in_16_mebibytes();
    let before = contents(&case);
    let limited = "ulimit -c 0; ulimit -f 4; exec \"$0\" \"$@\"";
    let output =
        Command::new("sh").args(["-c", limited, PROGRAM]).args(case.words()).output().expect("it starts");
    assert_eq!(output.status.signal(), Some(25), "killed for too large a file");
    assert!(contents(&case) == before);
    assert_eq!(case.names(), ["guest", "keys", "keys.new", "storage", "storage.new"]);
    let run = case.run();
    assert_eq!(run.status, Some(4));
    assert!(run.messages.starts_with("vma: an earlier call was cut short before it happened"));
    assert_eq!(case.read("keys")[..2], [4, 0]);
    assert_eq!(case.names(), ["guest", "keys", "storage"]);
}

#[test]
fn a_call_that_does_not_complete_clears_up_as_well() {
    let mut case = with_left(&[("storage.new", b"")]);
    let before = contents(&case);
    case.first = "0000";
    let run = case.run();
    assert_eq!(run.status, Some(4), "{}", run.output);
    assert!(run.messages.starts_with("vma: an earlier call was cut short before it happened"));
    assert_eq!(contents(&case), before);
    assert_eq!(case.names(), ["guest", "keys", "storage"]);
}
