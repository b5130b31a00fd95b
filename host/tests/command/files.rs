//! What becomes of the files besides their contents.

use std::fs::{self, File};
use std::os::unix::fs::{symlink, PermissionsExt};
use std::path::Path;
use std::process::{Command, Stdio};

use crate::case::{run, ssk, ssm, Case, PROGRAM};

#[test]
fn permission_bits_are_kept() {
    let case = ssm(0x07);
    for (name, mode) in [("storage", 0o640), ("keys", 0o604), ("guest", 0o660)] {
        fs::set_permissions(case.path(name), fs::Permissions::from_mode(mode)).expect("set");
    }
    assert_eq!(case.run().status, Some(0));
    for (name, mode) in [("storage", 0o640), ("keys", 0o604), ("guest", 0o660)] {
        let found = fs::metadata(case.path(name)).expect("metadata").permissions().mode();
        assert_eq!(found & 0o7777, mode, "{name}");
    }
}

#[test]
fn symbolic_links_are_followed() {
    let case = ssm(0x07);
    let elsewhere = case.path("elsewhere");
    fs::create_dir(&elsewhere).expect("a folder");
    for name in ["storage", "keys", "guest"] {
        fs::rename(case.path(name), elsewhere.join(name)).expect("renamed");
        symlink(Path::new("elsewhere").join(name), case.path(name)).expect("a link");
    }
    assert_eq!(case.run().status, Some(0));
    for name in ["storage", "keys", "guest"] {
        assert!(fs::symlink_metadata(case.path(name)).expect("metadata").is_symlink());
    }
    assert_eq!(case.read("storage")[0x600], 0x07);
    assert_eq!(case.record()[1], 0x1004);
    assert_eq!(fs::read_dir(elsewhere).expect("a folder").count(), 3);
}

/// The message of a call whose result goes to the device that is always full.
fn message_with_a_full_output(case: &Case) -> String {
    let full = File::options().write(true).open("/dev/full").expect("the device that is always full");
    let child = case.command().stdout(full).stderr(Stdio::piped()).spawn().expect("the program starts");
    let output = child.wait_with_output().expect("it ends");
    assert_eq!(output.status.code(), Some(1));
    String::from_utf8(output.stderr).expect("text")
}

#[test]
fn a_result_that_cannot_be_printed() {
    let expected = "vma: the result can't be printed: No space left on device (os error 28)";
    let written = format!("{expected}; the call is made and the files are written\n");
    let case = ssm(0x07);
    assert_eq!(message_with_a_full_output(&case), written);
    assert_eq!(case.record()[1], 0x1004);
    // Refused: the first time there are reference bits to be written, the second time nothing.
    let case = ssm(0x84);
    assert_eq!(message_with_a_full_output(&case), written);
    assert_eq!(case.read("keys"), [4, 0, 4, 0, 4, 0, 0, 0]);
    assert_eq!(message_with_a_full_output(&case), format!("{expected}\n"));
}

#[test]
fn calls_at_the_same_time_are_made_one_after_another() {
    let case = ssk();
    let calls: Vec<_> =
        (0..12).map(|_| case.command().stdout(Stdio::null()).spawn().expect("started")).collect();
    for mut call in calls {
        assert!(call.wait().expect("it ends").success());
    }
    assert_eq!(case.record()[1], 0x1000 + 12 * 2);
    assert_eq!(case.names(), ["guest", "keys", "storage"]);
}

#[test]
fn paths_are_taken_from_where_the_user_is() {
    let case = ssm(0x07);
    let mut command = Command::new(PROGRAM);
    command.current_dir(&case.folder).args(["attempt", "--storage", "storage", "--keys", "./keys"]);
    let run = run(command.args(["--guest", "guest", "--first", "8000"]));
    assert_eq!((run.status, run.messages.as_str()), (Some(0), ""));
    assert_eq!(case.read("storage")[0x600], 0x07);
}
