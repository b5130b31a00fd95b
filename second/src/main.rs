//! Commands: `second edges`, `second report`, `second vectors`, `second damage`, `second trail`.

use std::io::Write;
use std::path::Path;
use std::process::ExitCode;

use second::damaged;
use second::edges::{self, Edge};
use second::eight_calls;
use second::report::Tally;
use second::vectors::{SetOptions, VectorSet, FEWEST_CALLS, FEWEST_LARGE_CALLS};

const USAGE: &str = "usage: second edges [--large]
       second report [--seed N] [--calls N]
       second vectors [--seed N] [--calls N] [--large] --out DIR
       second damage --out DIR
       second trail [--out FILE]

edges    prints one line for each edge of document 01, of ISK and RRB (document 02, R-4), of LRA (R-9), of
         recording (R-13), of low-address protection (R-6) and at the end of storage (R-10); --large: those
         in more than 4,194,304 bytes
report   prints how often random calls reach each ending, code, step and place (seed 1, 20000 calls)
vectors  writes calls to DIR/stdin and what must be printed for them to DIR/stdout, and prints the
         report over them (seed 1, 10000 calls; --large: in up to 16,779,264 bytes, 200 calls)
damage   writes damaged files of calls to DIR, each NAME.stdin with NAME.stdout
trail    prints what eight calls and the writing of each in a trail give, and the trail's buffer;
         --out: writes that trail, cut after its trailer, to FILE and prints nothing";

/// Options as given.
#[derive(Default)]
struct Options<'a> {
    seed: Option<u64>,
    calls: Option<usize>,
    large: bool,
    out: Option<&'a str>,
}

fn main() -> ExitCode {
    let arguments: Vec<String> = std::env::args().skip(1).collect();
    let words: Vec<&str> = arguments.iter().map(String::as_str).collect();
    let Some((&command, rest)) = words.split_first() else {
        return usage();
    };
    let Some(options) = options(rest) else {
        return usage();
    };
    match (command, options) {
        ("edges", Options { seed: None, calls: None, large, out: None }) => {
            print(&edge_lines(if large { edges::large() } else { edges::small() }))
        }
        ("report", Options { seed, calls, large: false, out: None }) => {
            let calls = calls.unwrap_or(20_000) as u64;
            print(&Tally::of_random_calls(seed.unwrap_or(1), calls).text())
        }
        ("vectors", Options { seed, calls, large, out: Some(out) }) => {
            let calls = calls.unwrap_or(if large { 200 } else { 10_000 });
            write_vectors(SetOptions { seed: seed.unwrap_or(1), calls, large }, Path::new(out))
        }
        ("damage", Options { seed: None, calls: None, large: false, out: Some(out) }) => {
            write_damaged(Path::new(out))
        }
        ("trail", Options { seed: None, calls: None, large: false, out: None }) => {
            print(&eight_calls::text())
        }
        ("trail", Options { seed: None, calls: None, large: false, out: Some(out) }) => {
            write_trail(Path::new(out))
        }
        _ => usage(),
    }
}

/// `None` if an option is wrong or given twice.
fn options<'a>(words: &[&'a str]) -> Option<Options<'a>> {
    let mut options = Options::default();
    let mut rest = words.iter();
    while let Some(&name) = rest.next() {
        let repeated = match name {
            "--large" => std::mem::replace(&mut options.large, true),
            "--seed" => options.seed.replace(rest.next()?.parse().ok()?).is_some(),
            "--calls" => options.calls.replace(rest.next()?.parse().ok()?).is_some(),
            "--out" => options.out.replace(rest.next()?).is_some(),
            _ => return None,
        };
        if repeated {
            return None;
        }
    }
    Some(options)
}

fn edge_lines(edges: Vec<Edge>) -> String {
    let lines: Vec<String> = edges.iter().map(|edge| edge.line()).collect();
    lines.join("\n")
}

fn write_vectors(options: SetOptions, directory: &Path) -> ExitCode {
    let fewest = if options.large { FEWEST_LARGE_CALLS } else { FEWEST_CALLS };
    if options.calls < fewest {
        return fail(&format!("a set has at least {fewest} calls, not {}", options.calls));
    }
    if !directory.is_dir() {
        return fail(&format!("no such directory: {}", directory.display()));
    }
    let set = VectorSet::new(options);
    match write_files(directory, &[("stdin", set.stdin()), ("stdout", set.stdout())]) {
        Ok(()) => print(&set.report()),
        Err(message) => fail(&message),
    }
}

fn write_damaged(directory: &Path) -> ExitCode {
    if !directory.is_dir() {
        return fail(&format!("no such directory: {}", directory.display()));
    }
    let cases = damaged::all();
    for case in &cases {
        let (stdin, stdout) = case.texts();
        let names = [format!("{}.stdin", case.name), format!("{}.stdout", case.name)];
        if let Err(message) = write_files(directory, &[(&names[0], &stdin), (&names[1], &stdout)]) {
            return fail(&message);
        }
    }
    print(&format!("{} damaged files", cases.len()))
}

fn write_trail(path: &Path) -> ExitCode {
    match write_file(path, &eight_calls::trail_file()) {
        Ok(()) => ExitCode::SUCCESS,
        Err(message) => fail(&message),
    }
}

fn write_files(directory: &Path, files: &[(&str, &str)]) -> Result<(), String> {
    for (name, text) in files {
        write_file(&directory.join(name), text.as_bytes())?;
    }
    Ok(())
}

fn write_file(path: &Path, bytes: &[u8]) -> Result<(), String> {
    std::fs::write(path, bytes).map_err(|error| format!("{}: {error}", path.display()))
}

fn print(text: &str) -> ExitCode {
    match writeln!(std::io::stdout(), "{text}") {
        Ok(()) => ExitCode::SUCCESS,
        Err(_) => ExitCode::FAILURE,
    }
}

fn fail(message: &str) -> ExitCode {
    eprintln!("second: {message}");
    ExitCode::FAILURE
}

fn usage() -> ExitCode {
    eprintln!("{USAGE}");
    ExitCode::from(2)
}
