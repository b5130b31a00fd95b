//! Trail files as hex, field by field.

use std::process::Command;

use crate::case::{record, run, Case, Run, PROGRAM};

/// Sequence, guest number, first halfword, expanded flag, ending, code or step, count, next address,
/// translation address; PSW; general registers; control registers 0, 1 and 6; 20 zeros.
pub const SSM: &str = "
    00000000 00000009 8000 00 00 0000 0009 00001004 00000000
    00090000 00001000
    00000000 00000000 5A001FF0 00000000  00000000 00000000 00000000 00000000
    00000000 00000000 00000000 00000000  00000000 00000000 00000000 00000000
    00000000 00000000 80000400
    00000000 00000000 00000000 00000000 00000000";

pub const STCTL: &str = "
    00000001 FFFFFFFF B655 01 01 0011 000C 00001000 00002000
    04090000 AB001000
    F0F00000 F0F00001 F0F00002 F0F00003  F0F00004 F0F00005 F0F00006 F0F00007
    F0F00008 F0F00009 F0F0000A F0F0000B  F0F0000C F0F0000D F0F0000E F0F0000F
    00800000 00003000 80000400
    00000000 00000000 00000000 00000000 00000000";

pub const SSK: &str = "
    00000002 00000000 0834 00 03 000B 0005 00FFFFFE 00000000
    00090000 00FFFFFE
    00000000 00000000 00000000 ABCDEF3F  5A023000 00000000 00000000 00000000
    00000000 00000000 00000000 00000000  00000000 00000000 00000000 00000000
    00000000 00000000 80000400
    00000000 00000000 00000000 00000000 00000000";

/// The lines of the three.
pub const LINES: [&str; 3] = [
    "record 0: guest 9, SSM 8000, no expanded assist, ending 0 completed; 9 references; instruction at 001000, \
     next 001004\n",
    "record 1: guest 4294967295, STCTL B655, expanded assist installed, ending 1 program interruption, code 17 \
     page translation, at 002000; 12 references; instruction at 001000, next 001000\n",
    "record 2: guest 0, SSK 0834, no expanded assist, ending 3 control field or key block not in storage, step \
     11; 5 references; instruction at FFFFFE, next FFFFFE\n",
];

/// Distance back to the first record, records held, records turned away, version.
pub const AFTER_THREE: &str = "00000180 00000003 00000000 00000001";

/// The three records and their trailer.
pub fn three() -> Vec<u8> {
    bytes(&[SSM, STCTL, SSK, AFTER_THREE])
}

/// Hex digits as bytes, whatever the white space between them.
pub fn bytes(parts: &[&str]) -> Vec<u8> {
    let digits: Vec<u8> = parts.concat().bytes().filter(|byte| !byte.is_ascii_whitespace()).collect();
    let value = |pair: &[u8]| {
        let text = std::str::from_utf8(pair).expect("text");
        u8::from_str_radix(text, 16).expect("hex")
    };
    digits.chunks(2).map(value).collect()
}

/// Ten MiB and a trailer: 81,920 records of SSM, of which none was turned away.
pub fn ten_mebibytes() -> Vec<u8> {
    let record = bytes(&[SSM]);
    let mut trail: Vec<u8> =
        (0_u32..81_920).flat_map(|sequence| [&sequence.to_be_bytes(), &record[4..]].concat()).collect();
    trail.extend(bytes(&["00A00000 00014000 00000000 00000001"]));
    trail
}

/// A folder with a file `trail`.
pub fn case(trail: &[u8]) -> Case {
    let case = Case::new("", &[], &record());
    case.write("trail", trail);
    case
}

/// `vma trail show trail` in the folder.
pub fn command(case: &Case, options: &[&str]) -> Command {
    let mut command = Command::new(PROGRAM);
    command.current_dir(&case.folder).args(["trail", "show", "trail"]).args(options);
    command
}

pub fn show(trail: &[u8], options: &[&str]) -> Run {
    run(&mut command(&case(trail), options))
}
