//! Trails that are whole.

use super::bytes::{bytes, case, command, show, three, LINES, SSK, SSM, STCTL};
use crate::case::run;

#[test]
fn three_records() {
    let case = case(&three());
    let before = case.snapshot();
    let run = run(&mut command(&case, &[]));
    let expected = LINES.concat() + "3 records held, none turned away: the trail was never full.\n";
    assert_eq!((run.status, run.output, run.messages), (Some(0), expected, String::new()));
    assert_eq!(case.snapshot(), before, "nothing is touched");
}

#[test]
fn registers() {
    let trail = bytes(&[SSM, STCTL, "00000100 00000002 00000000 00000001"]);
    let zeros = "00000000 00000000 00000000 00000000";
    let expected = [
        LINES[0],
        "    PSW                         00090000 00001000\n",
        "    general registers 0 to 3    00000000 00000000 5A001FF0 00000000\n",
        &format!("    general registers 4 to 7    {zeros}\n"),
        &format!("    general registers 8 to 11   {zeros}\n"),
        &format!("    general registers 12 to 15  {zeros}\n"),
        "    control registers 0, 1, 6   00000000 00000000 80000400\n",
        LINES[1],
        "    PSW                         04090000 AB001000\n",
        "    general registers 0 to 3    F0F00000 F0F00001 F0F00002 F0F00003\n",
        "    general registers 4 to 7    F0F00004 F0F00005 F0F00006 F0F00007\n",
        "    general registers 8 to 11   F0F00008 F0F00009 F0F0000A F0F0000B\n",
        "    general registers 12 to 15  F0F0000C F0F0000D F0F0000E F0F0000F\n",
        "    control registers 0, 1, 6   00800000 00003000 80000400\n",
        "2 records held, none turned away: the trail was never full.\n",
    ];
    let run = show(&trail, &["--registers"]);
    assert_eq!((run.status, run.output, run.messages), (Some(0), expected.concat(), String::new()));
}

#[test]
fn turned_away() {
    for (number, words) in [
        ("00000001", "1 MORE CALL WAS TURNED AWAY: THE TRAIL WAS FULL, AND THAT CALL IS NOT IN IT."),
        ("00000003", "3 MORE CALLS WERE TURNED AWAY: THE TRAIL WAS FULL, AND THEY ARE NOT IN IT."),
        (
            "FFFFFFFE",
            "4,294,967,294 MORE CALLS WERE TURNED AWAY: THE TRAIL WAS FULL, AND THEY ARE NOT IN IT.",
        ),
        (
            "FFFFFFFF",
            "4,294,967,295 OR MORE CALLS WERE TURNED AWAY: THE TRAIL WAS FULL, AND THEY ARE NOT IN IT.",
        ),
    ] {
        let run = show(&bytes(&[SSM, STCTL, SSK, "00000180 00000003", number, "00000001"]), &[]);
        let expected = format!("{}3 records held. {words}\n", LINES.concat());
        assert_eq!((run.status, run.output, run.messages), (Some(5), expected, String::new()));
    }
}

#[test]
fn empty() {
    let run = show(&bytes(&["00000000 00000000 00000000 00000001"]), &[]);
    let expected = "0 records held, none turned away: no call was written down in this trail.\n";
    assert_eq!((run.status, run.output.as_str(), run.messages.as_str()), (Some(0), expected, ""));
    let run = show(&bytes(&["00000000 00000000 00000002 00000001"]), &[]);
    let expected =
        "0 records held. 2 MORE CALLS WERE TURNED AWAY: THE TRAIL WAS FULL, AND THEY ARE NOT IN IT.\n";
    assert_eq!((run.status, run.output.as_str(), run.messages.as_str()), (Some(5), expected, ""));
}

/// What is said of a record that begins like this: from the instruction to the count.
fn said(instruction_and_answer: &str, next_and_translation: &str) -> String {
    let rest = bytes(&[SSM]).split_off(24);
    let mut trail = bytes(&["00000000 00000001", instruction_and_answer, next_and_translation]);
    trail.extend(rest);
    trail.extend(bytes(&["00000080 00000001 00000000 00000001"]));
    let run = show(&trail, &[]);
    assert_eq!((run.status, run.messages.as_str()), (Some(0), ""));
    let line = run.output.strip_prefix("record 0: guest 1, ").expect("a record");
    line.split("; instruction at 001000, ").next().expect("an instruction").into()
}

#[test]
fn all_endings() {
    for (record, expected) in [
        (
            "AC04 00 01 0002 0000",
            "STNSM AC04, no expanded assist, ending 1 program interruption, code 2 privileged",
        ),
        (
            "AD04 01 02 0000 0002",
            "STOSM AD04, expanded assist installed, ending 2 handed to the expanded assist; 2",
        ),
        (
            "8000 00 09 0000 0000",
            "SSM 8000, no expanded assist, ending 9 PSW bit 12 or bit 15 is zero; 0 references",
        ),
        (
            "8000 00 0A 0000 0000",
            "SSM 8000, no expanded assist, ending 10 storage is not a multiple of 2,048 bytes",
        ),
        (
            "8000 00 0B 0000 0000",
            "SSM 8000, no expanded assist, ending 11 number of keys is not storage / 2,048; 0",
        ),
        (
            "8000 00 0C 0000 0000",
            "SSM 8000, no expanded assist, ending 12 instruction address is odd; 0 references",
        ),
        (
            "B212 00 0D 0000 0000",
            "operation B212 B212, no expanded assist, ending 13 operation code is none of the",
        ),
        (
            "8000 00 FF 0000 FFFF",
            "SSM 8000, no expanded assist, ending 255 (no ending has this number); 65535",
        ),
    ] {
        let found = said(record, "00001000 00000000");
        assert!(found.starts_with(expected), "{found}");
    }
}

#[test]
fn numbers_are_not_cut_and_what_should_be_zero_is_marked() {
    let common = "SSM 8000, no expanded assist, ending";
    assert_eq!(
        said("8000 00 01 0111 0001", "00001000 00002000"),
        format!(
            "{common} 1 program interruption, code 273 (no interruption has this code) \
             [translation address is 002000, and should be zero]; 1 reference"
        )
    );
    assert_eq!(
        said("8000 00 00 0100 0009", "00001000 89ABCDEF"),
        format!(
            "{common} 0 completed [code or step is 256, and should be zero] \
             [translation address is 89ABCDEF, and should be zero]; 9 references"
        )
    );
    assert_eq!(
        said("8000 00 03 0102 0000", "00001000 00000000"),
        format!("{common} 3 control field or key block not in storage, step 258; 0 references")
    );
}

#[test]
fn symbolic_links_are_followed() {
    let case = case(&three());
    std::fs::rename(case.path("trail"), case.path("elsewhere")).expect("renamed");
    std::os::unix::fs::symlink("elsewhere", case.path("trail")).expect("a link");
    assert_eq!(run(&mut command(&case, &[])).status, Some(0));
}
