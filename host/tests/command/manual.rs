//! The manual page: its examples work as they stand there, and its usage is the program's.

use std::fs;
use std::path::Path;
use std::process::Command;

use crate::case::{record, run, vma, Case, PROGRAM};

fn page() -> String {
    fs::read_to_string(Path::new(env!("CARGO_MANIFEST_DIR")).join("../docs/vma.1")).expect("the page")
}

/// Text as it is printed.
fn printed(source: &str) -> String {
    let marks = [("\\-", "-"), ("\\(aq", "'"), ("\\e", "\\"), ("\\fB", ""), ("\\fI", ""), ("\\fR", "")];
    marks.into_iter().fold(source.to_string(), |text, (mark, plain)| text.replace(mark, plain))
}

/// The blocks between such lines, in the section with a heading.
fn blocks(page: &str, heading: &str, start: &str, end: &str) -> Vec<String> {
    let section = page.split("\n.SH ").find(|section| section.starts_with(heading)).expect(heading);
    let block = |part: &str| printed(part.split(end).next().expect("a block"));
    section.split(start).skip(1).map(block).collect()
}

/// Run the example in a block: what it prints is in the next one. Gives its folder.
fn example(block: usize, status: i32) -> Case {
    let examples = blocks(&page(), "EXAMPLES", "\n.EX\n", "\n.EE");
    let case = Case::new("", &[], &record());
    let folder = Path::new(PROGRAM).parent().expect("a folder").display();
    let script = format!("PATH='{folder}':$PATH\n{}", examples[block]);
    let run = run(Command::new("sh").args(["-e", "-c", &script]).current_dir(&case.folder));
    let expected = (Some(status), examples[block + 1].clone() + "\n", String::new());
    assert_eq!((run.status, run.output, run.messages), expected);
    case
}

#[test]
fn set_system_mask() {
    assert_eq!(example(0, 0).read("storage")[0x600], 0x07);
}

#[test]
fn trail() {
    example(3, 5);
}

#[test]
fn usage() {
    let synopsis = blocks(&page(), "SYNOPSIS", "\n.nf\n", "\n.fi\n").concat();
    let help = vma(&["--help"]).output;
    let usage: Vec<&str> = help.split("\n\n").next().expect("usage").lines().map(|line| &line[7..]).collect();
    let synopsis: Vec<&str> = synopsis.lines().collect();
    assert_eq!(synopsis[..5], usage);
}
