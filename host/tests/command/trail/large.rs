//! Trails of ten MiB: progress, and what may happen while they are read and printed.

use std::fs::{File, OpenOptions};
use std::io::{pipe, BufRead, BufReader, Read, Seek, SeekFrom, Write};
use std::process::{Command, Stdio};

use super::bytes::{case, command, show, ten_mebibytes, three};
use crate::case::{run, Case, Run, PROGRAM};

/// The lines about the progress.
const PROGRESS: &str = "\
    vma: 10 %, 8,192 of 81,920 records\n\
    vma: 20 %, 16,384 of 81,920 records\n\
    vma: 30 %, 24,576 of 81,920 records\n\
    vma: 40 %, 32,768 of 81,920 records\n\
    vma: 50 %, 40,960 of 81,920 records\n\
    vma: 60 %, 49,152 of 81,920 records\n\
    vma: 70 %, 57,344 of 81,920 records\n\
    vma: 80 %, 65,536 of 81,920 records\n\
    vma: 90 %, 73,728 of 81,920 records\n";

#[test]
fn every_record_and_the_progress() {
    let run = show(&ten_mebibytes(), &[]);
    assert_eq!((run.status, run.messages.as_str()), (Some(0), PROGRESS));
    let mut lines = run.output.lines();
    for sequence in 0..81_920 {
        let expected =
            format!("record {sequence}: guest 9, SSM 8000, no expanded assist, ending 0 completed;");
        assert!(lines.next().expect("a record").starts_with(&expected), "{expected}");
    }
    let last = "81,920 records held, none turned away: the trail was never full.";
    assert_eq!(lines.collect::<Vec<_>>(), [last]);
}

#[test]
fn memory_does_not_grow_with_the_file() {
    let case = case(&ten_mebibytes());
    let limited = "ulimit -v 9216; exec \"$0\" trail show trail --registers";
    let run = run(Command::new("sh").args(["-c", limited, PROGRAM]).current_dir(&case.folder));
    assert_eq!((run.status, run.messages.as_str()), (Some(0), PROGRESS));
}

#[test]
fn damage_in_the_middle() {
    let mut trail = ten_mebibytes();
    trail[5_242_880] = 1;
    let run = show(&trail, &[]);
    let half: String = PROGRESS.split_inclusive('\n').take(5).collect();
    let message =
        "vma: trail file trail: record 40960, byte 5242880 (hex 500000): the sequence number is 16818176, \
         and should be 40960\n";
    assert_eq!((run.status, run.messages), (Some(1), half + message));
    assert_eq!(run.output.lines().count(), 40_960);
}

#[test]
fn a_buffer_saved_whole() {
    let mut trail = ten_mebibytes();
    trail.extend([0; 112]);
    let run = show(&trail, &[]);
    assert_eq!((run.status, run.output.as_str()), (Some(1), ""));
    let message = run.messages.rsplit_once("vma: ").expect("a message").1;
    assert!(run.messages.starts_with("vma: 10 %, 8,193 of 81,921 records\nvma: 20 %, "), "{}", run.messages);
    assert!(message.starts_with("trail file trail: trailer, byte 10485884 (hex A0007C): the version is 0, "));
    assert!(message
        .contains("A trailer of 81920 records stands at byte 10485760 (hex A00000), and 112 bytes after"));
}

#[test]
fn output_that_cannot_be_written() {
    for trail in [three(), ten_mebibytes()] {
        let case = case(&trail);
        let full = OpenOptions::new().write(true).open("/dev/full").expect("the device that is always full");
        let output = command(&case, &[]).stdout(full).output().expect("it starts");
        let expected = "vma: the result can't be printed: No space left on device (os error 28)\n";
        assert_eq!(output.status.code(), Some(1));
        assert_eq!(String::from_utf8(output.stderr).as_deref(), Ok(expected));
        let (reader, writer) = pipe().expect("a pipe");
        drop(reader);
        let output = command(&case, &[]).stdout(writer).output().expect("it starts");
        let expected = "vma: the result can't be printed: Broken pipe (os error 32)\n";
        assert_eq!(output.status.code(), Some(1));
        assert_eq!(String::from_utf8(output.stderr).as_deref(), Ok(expected));
    }
}

/// Shown, with something happening to the file after the first lines: the pipe has no room for all of them, so
/// it happens long before the last.
fn meanwhile(case: &Case, happens: impl FnOnce(&mut File)) -> Run {
    let mut child =
        command(case, &[]).stdout(Stdio::piped()).stderr(Stdio::piped()).spawn().expect("the program starts");
    let mut reader = BufReader::new(child.stdout.take().expect("a pipe"));
    let mut output = String::new();
    reader.read_line(&mut output).expect("a line");
    happens(&mut OpenOptions::new().write(true).open(case.path("trail")).expect("opened"));
    reader.read_to_string(&mut output).expect("text");
    let ended = child.wait_with_output().expect("it ends");
    let messages = String::from_utf8(ended.stderr).expect("text");
    Run { status: ended.status.code(), output, messages: messages.replace(PROGRESS, "") }
}

#[test]
fn a_file_that_changes_while_it_is_read() {
    let changed = "vma: trail file trail: changed while it was read:";
    let shorter = meanwhile(&case(&ten_mebibytes()), |file| file.set_len(9_000_000).expect("cut"));
    assert_eq!(shorter.status, Some(1));
    let expected = format!("{changed} it had 10485776 bytes, and now has 9000000\n");
    assert!(shorter.messages.ends_with(&expected), "{}", shorter.messages);
    assert_eq!(shorter.output.lines().count(), 9_000_000 / 128);
    let longer = meanwhile(&case(&ten_mebibytes()), |file| file.set_len(10_485_777).expect("longer"));
    let expected = format!("{changed} it had 10485776 bytes, and now has 10485777\n");
    assert_eq!((longer.status, longer.messages), (Some(1), expected));
    assert_eq!(longer.output.lines().count(), 81_920, "and no last line");
    let another = meanwhile(&case(&ten_mebibytes()), |file| {
        file.seek(SeekFrom::Start(10_485_771)).and_then(|_| file.write_all(&[1])).expect("one turned away");
    });
    assert_eq!(
        (another.status, another.messages),
        (Some(1), format!("{changed} its trailer is another now\n"))
    );
}

#[test]
fn a_terminal() {
    // The pipe's other end waits, so that reading takes longer than half a second.
    let shown = format!("'{PROGRAM}' trail show trail | (sleep 2; cat >/dev/null)");
    let case = case(&ten_mebibytes());
    let script =
        Command::new("script").args(["-qec", &shown, "/dev/null"]).current_dir(&case.folder).output();
    let Ok(script) = script else {
        return; // there is no such program here that gives another a terminal
    };
    let terminal = String::from_utf8(script.stdout).expect("text");
    let parts: Vec<&str> = terminal.split('\r').collect();
    let ["", lines @ .., wiped, ""] = &parts[..] else {
        panic!("{terminal:?}");
    };
    assert!(lines.iter().all(|line| line.starts_with("vma: ") && line.ends_with(" of 81,920 records")));
    assert_eq!(Some(*wiped), lines.last().map(|line| " ".repeat(line.len())).as_deref(), "{terminal:?}");
}
