//! Help, and the words of the command line that aren't known.

use crate::case::vma;

const COMMANDS: [&str; 5] = ["demo", "attempt", "bench", "fuzz", "trail"];

#[test]
fn help_lists_the_commands() {
    let run = vma(&["--help"]);
    assert_eq!((run.status, run.messages.as_str()), (Some(0), ""));
    assert!(run.output.starts_with("usage: vma demo\n"));
    for command in COMMANDS {
        assert!(run.output.contains(&format!("\n  {command} ")), "{command}");
    }
}

#[test]
fn each_command_has_help() {
    for command in COMMANDS {
        let run = vma(&[command, "--help"]);
        assert_eq!((run.status, run.messages.as_str()), (Some(0), ""));
        assert!(run.output.starts_with(&format!("usage: vma {command}")), "{}", run.output);
    }
}

#[test]
fn help_is_given_whatever_the_other_words() {
    for command in ["demo", "attempt", "bench", "fuzz"] {
        assert_eq!(vma(&[command, "nonsense", "--help"]).output, vma(&[command, "--help"]).output);
    }
    let help = vma(&["trail", "show", "--help"]);
    assert_eq!((help.status, help.messages.as_str()), (Some(0), ""));
    assert!(help.output.starts_with("usage: vma trail show FILE [--registers]\n\nPrints the records"));
    assert_eq!(vma(&["trail", "show", "nonsense", "--help"]).output, help.output);
}
