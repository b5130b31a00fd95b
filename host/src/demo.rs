//! `vma demo`: the edges of document 01, those of ISK and RRB, of LRA, of recording, of low-address protection and at
//! the end of storage, through the library, and whether the second program says the same.

use std::ffi::OsString;

use second::edges::{self, Edge};
use second::Instruction;

use crate::changes;
use crate::command::{self, unknown, Action, Command, Failure, Report};
use crate::record::{self, Record};
use crate::sides::{self, Made};
use crate::words;

pub const COMMAND: Command = Command { name: "demo", help: HELP, action: Action::Run(run) };

const HELP: &str = "usage: vma demo

Runs the edges of document 01 (section \"Edges to show\"), its wrong turns, and the edges of ISK and RRB, of
LRA, of reference and change recording, of low-address protection and at the end of storage (document 02,
R-4, R-9, R-13, R-6 and R-10) through the proved library, and prints for each what comes of it: the ending,
the count of references, the next instruction address, of ISK and LRA register R1, of RRB and LRA the
condition code, and the bytes and keys that changed, old -> new. (*) marks the edges of document 01 that are
also proved, as one table. Addresses, registers, bytes and keys are hex; endings, codes, steps, places,
counts, register and block numbers are decimal.

Each answer is compared with the second program's: its numbers, the record, every byte and every key. If one
differs, it is said where, and the status is 1.
";

fn run(words: &[OsString]) -> Result<Report, Failure> {
    if let Some(word) = words.first() {
        return Err(unknown(word));
    }
    let mut all = edges::small();
    all.extend(edges::large());
    let (mut text, mut differing) = (String::new(), 0);
    for instruction in Instruction::ALL.map(Some).into_iter().chain([None]) {
        text.push_str(&heading(instruction));
        for edge in all.iter().filter(|edge| instruction_of(edge) == instruction) {
            let (lines, differs) = show(edge);
            text.push_str(&lines);
            differing += usize::from(differs);
        }
    }
    text.push_str(&conclusion(all.len(), differing));
    Ok(Report::new(text, if differing == 0 { command::COMPLETED } else { command::ERROR }))
}

fn instruction_of(edge: &Edge) -> Option<Instruction> {
    Instruction::of_first_halfword(edge.request.first_halfword)
}

fn heading(instruction: Option<Instruction>) -> String {
    let Some(instruction) = instruction else {
        return "Other operation codes\n\n".into();
    };
    let name = match instruction {
        Instruction::SetSystemMask => "SET SYSTEM MASK",
        Instruction::StoreControl => "STORE CONTROL",
        Instruction::StoreThenAnd => "STORE THEN AND SYSTEM MASK",
        Instruction::StoreThenOr => "STORE THEN OR SYSTEM MASK",
        Instruction::SetStorageKey => "SET STORAGE KEY",
        Instruction::InsertStorageKey => "INSERT STORAGE KEY",
        Instruction::ResetReferenceBit => "RESET REFERENCE BIT",
        Instruction::LoadRealAddress => "LOAD REAL ADDRESS",
    };
    let code = match instruction {
        Instruction::ResetReferenceBit => format!("{:04X}", instruction.first_halfword(0)),
        _ => format!("{:02X}", instruction.operation_code()),
    };
    format!("{name} ({}, {code})\n\n", instruction.mnemonic())
}

/// An edge's paragraph, and whether the two programs differ.
fn show(edge: &Edge) -> (String, bool) {
    let before = sides::before(&edge.image, &edge.request);
    let library = sides::make(sides::library, &edge.image, &edge.request);
    let second = sides::make(sides::listed, &edge.image, &edge.request);
    let first_halfword = edge.request.first_halfword;
    let differences = sides::differences(&library, &second, first_halfword);
    let mark = if edge.marked { "(*) " } else { "" };
    let mut lines =
        vec![format!("  {mark}{}", edge.case), format!("      {}", answer_line(&library, first_halfword))];
    let changes = changes::place_lines(&before, &library.after, changes::changed);
    lines.extend(changes.iter().map(|line| format!("      {line}")));
    lines.extend(differences.iter().map(|line| format!("      DIFFERS: {line}")));
    (lines.join("\n") + "\n\n", !differences.is_empty())
}

fn answer_line(made: &Made, first_halfword: u16) -> String {
    let references = sides::references(made.answer.count);
    let next = record::instruction_address(&made.after.record);
    let ending = words::ending(made.answer, first_halfword);
    format!("{ending}; {references}; next instruction address {next:06X}{}", result(made, first_halfword))
}

/// What ISK, RRB and LRA give, as the record handed back has it.
fn result(made: &Made, first_halfword: u16) -> String {
    let record = &made.after.record;
    match Instruction::of_first_halfword(first_halfword) {
        Some(Instruction::InsertStorageKey) => result_register(record, first_halfword),
        Some(Instruction::ResetReferenceBit) => condition_code(record),
        Some(Instruction::LoadRealAddress) => {
            result_register(record, first_halfword) + &condition_code(record)
        }
        _ => String::new(),
    }
}

fn result_register(record: &Record, first_halfword: u16) -> String {
    let r1 = usize::from(first_halfword >> 4 & 0xF);
    format!("; {} {:08X}", record::name(2 + r1), record[2 + r1])
}

fn condition_code(record: &Record) -> String {
    format!("; condition code {}", record::condition_code(record))
}

fn conclusion(edges: usize, differing: usize) -> String {
    match differing {
        0 => format!("{edges} edges; each answer is the second program's\n"),
        _ => format!("{edges} edges; {differing} differ from the second program, see DIFFERS above\n"),
    }
}
