//! Files that can't be read: the message names the file and what is wrong, and the status is 1.

use std::fs;
use std::os::unix::fs::PermissionsExt;
use std::process::Command;

use super::bytes::{case, command, three};
use crate::case::{run, Case};

fn message(case: &Case) -> String {
    let run = run(&mut command(case, &[]));
    assert_eq!((run.status, run.output.as_str()), (Some(1), ""));
    run.messages
}

/// A folder without the file `trail`.
fn without() -> Case {
    let case = case(b"");
    fs::remove_file(case.path("trail")).expect("removed");
    case
}

#[test]
fn a_file_that_is_not_there() {
    assert_eq!(message(&without()), "vma: trail file trail: No such file or directory (os error 2)\n");
}

#[test]
fn a_folder_a_device_or_a_pipe() {
    let expected = "vma: trail file trail: is not an ordinary file\n";
    let folder = without();
    fs::create_dir(folder.path("trail")).expect("a folder");
    assert_eq!(message(&folder), expected);
    let device = without();
    std::os::unix::fs::symlink("/dev/zero", device.path("trail")).expect("a link");
    assert_eq!(message(&device), expected);
    let pipe = without();
    assert!(Command::new("mkfifo").arg(pipe.path("trail")).status().expect("it starts").success());
    assert_eq!(message(&pipe), expected);
}

#[test]
fn a_file_that_may_not_be_read() {
    let case = case(&three());
    fs::set_permissions(case.path("trail"), fs::Permissions::from_mode(0)).expect("set");
    if fs::File::open(case.path("trail")).is_ok() {
        return; // the superuser may read it all the same
    }
    let expected = "vma: trail file trail: can't be opened for reading: Permission denied (os error 13)\n";
    assert_eq!(message(&case), expected);
}
