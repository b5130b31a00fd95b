//! How often each ending, code and step of each instruction is reached, and each condition code of LRA in each format.

use std::collections::BTreeMap;

use crate::address::{add, bytes_of_item, ADDRESS_MASK};
use crate::attempt::{Answer, Instruction};
use crate::call::{Call, Request};
use crate::generate::generate;
use crate::translation::Format;

/// Mnemonics of the columns; the last is any other operation code.
pub const COLUMNS: [&str; 9] = ["SSM", "STCTL", "STNSM", "STOSM", "SSK", "ISK", "RRB", "LRA", "other"];

/// Ending number and code, step or place.
pub type Outcome = (u32, u32);

/// Column, outcome, step and walk step at which the attempt ended.
pub type Point = (&'static str, Outcome, u8, u8);

/// Of a completed LRA: condition code, which length code 3 is for, format of the real tables, of the virtual ones.
pub type Load = (&'static str, &'static str, &'static str);

/// The words that choose the formats of the tables, as a call finds them; zeros for bytes that are not there.
#[derive(Clone, Copy, Debug)]
pub struct TableWords {
    micrseg: u32,
    virtual_register_0: u32,
}

/// Counts of what the calls reached.
#[derive(Default)]
pub struct Tally {
    pub calls: u64,
    pub completed: u64,
    pub outcomes: BTreeMap<(Outcome, &'static str), u64>,
    pub points: BTreeMap<Point, u64>,
    /// By column and translation state: calls and completions.
    pub translation: BTreeMap<(&'static str, &'static str), (u64, u64)>,
    pub loads: BTreeMap<Load, u64>,
    pub highest_count: usize,
}

impl Tally {
    /// Count one call; the words are those before it.
    pub fn add(&mut self, request: &Request, words: TableWords, answer: &Answer) {
        let column = column(request.first_halfword);
        let outcome = (answer.ending.number(), answer.ending.code_or_step());
        let completed = u64::from(outcome.0 == 0);
        self.calls += 1;
        self.completed += completed;
        *self.outcomes.entry((outcome, column)).or_default() += 1;
        *self.points.entry(point(request, answer)).or_default() += 1;
        if let Some(load) = load(request, words, answer) {
            *self.loads.entry(load).or_default() += 1;
        }
        for state in [translation_words(request)].into_iter().chain(real_table_words(request, words)) {
            let (calls, completions) = self.translation.entry((column, state)).or_default();
            *calls += 1;
            *completions += completed;
        }
        self.highest_count = self.highest_count.max(answer.count());
    }

    pub fn of_random_calls(seed: u64, calls: u64) -> Tally {
        let mut tally = Tally::default();
        for index in 0..calls {
            let Call { image, request } = generate(seed, index);
            let (mut storage, mut keys) = (image.storage(), image.key_bytes());
            let words = TableWords::of(&storage, &request);
            let answer = request.make(&mut storage, &mut keys);
            tally.add(&request, words, &answer);
        }
        tally
    }

    /// The whole report as text.
    pub fn text(&self) -> String {
        let share = 100.0 * self.completed as f64 / self.calls.max(1) as f64;
        let mut lines = vec![format!(
            "{} calls, {} completed ({share:.1} %), highest count of references {}",
            self.calls, self.completed, self.highest_count
        )];
        lines.extend(self.outcome_lines());
        lines.extend(self.translation_lines());
        lines.extend(self.load_lines());
        lines.extend(self.point_lines());
        lines.join("\n")
    }

    fn outcome_lines(&self) -> Vec<String> {
        let title = "ending (3: step or place)";
        let mut lines = vec![String::new(), table_line(title, &COLUMNS.map(String::from))];
        let mut outcomes: Vec<Outcome> = self.outcomes.keys().map(|key| key.0).collect();
        outcomes.dedup();
        for outcome in outcomes {
            let counts = COLUMNS
                .map(|column| count_words(self.outcomes.get(&(outcome, column)).copied().unwrap_or(0)));
            lines.push(table_line(&outcome_words(outcome), &counts));
        }
        lines
    }

    fn translation_lines(&self) -> Vec<String> {
        let mut lines = vec![String::new(), table_line("calls/completed", &COLUMNS.map(String::from))];
        let mut states: Vec<&str> = self.translation.keys().map(|key| key.1).collect();
        states.sort_unstable();
        states.dedup();
        for state in states {
            let counts = COLUMNS.map(|column| match self.translation.get(&(column, state)) {
                Some((calls, completions)) => format!("{calls}/{completions}"),
                None => "-".into(),
            });
            lines.push(table_line(state, &counts));
        }
        lines
    }

    /// For each condition code of LRA and each format of the real tables, the formats of the virtual ones.
    fn load_lines(&self) -> Vec<String> {
        let formats = Format::ALL.map(format_words);
        let mut lines = vec![String::new(), table_line("LRA: code, real tables", &formats.map(String::from))];
        for code in LOADS {
            for real in formats {
                let count = |format| self.loads.get(&(code, real, format)).copied().unwrap_or(0);
                lines.push(table_line(&format!("{code}; {real}"), &formats.map(count).map(count_words)));
            }
        }
        lines
    }

    fn point_lines(&self) -> Vec<String> {
        let mut lines = vec![String::new(), "instruction, step at which it ended, ending: calls".into()];
        for ((column, outcome, step, walk_step), count) in &self.points {
            let walk = match walk_step {
                0 => String::new(),
                7 => ", real address".into(),
                8 => ", key protection".into(),
                9 => ", low-address protection".into(),
                _ => format!(", walk step {walk_step}"),
            };
            lines.push(format!("{column:5} step {step:2}{walk}: {}: {count}", outcome_words(*outcome)));
        }
        lines
    }
}

/// The column of a first halfword.
pub fn column(first_halfword: u16) -> &'static str {
    Instruction::of_first_halfword(first_halfword).map_or("other", Instruction::mnemonic)
}

/// Where an attempt ended.
pub fn point(request: &Request, answer: &Answer) -> Point {
    let outcome = (answer.ending.number(), answer.ending.code_or_step());
    (column(request.first_halfword), outcome, answer.at_step, answer.at_walk_step)
}

impl TableWords {
    /// MICRSEG, and the word to whose address MICCREG leads.
    pub fn of(storage: &[u8], request: &Request) -> TableWords {
        let word = |address: u32| {
            bytes_of_item(address, 4).fold(0, |word, byte| {
                (word << 8) | u32::from(storage.get(byte as usize).copied().unwrap_or(0))
            })
        };
        let micblok = request.guest.micblok_address();
        let ecblok = word(add(micblok, 4)) & ADDRESS_MASK;
        TableWords { micrseg: word(micblok), virtual_register_0: word(ecblok) }
    }

    /// Formats of the real and of the virtual tables, in words.
    pub fn formats(self) -> (&'static str, &'static str) {
        let virtual_format = Format::of_control_register_0(self.virtual_register_0);
        (format_words(self.real_format()), virtual_format.map_or("wrong format", format_words))
    }

    /// Bits 30 and 31 of MICRSEG.
    fn real_format(self) -> Format {
        Format { pages_of_4k: self.micrseg & 2 == 0, segments_of_1m: self.micrseg & 1 == 1 }
    }
}

/// Condition codes of LRA, with the length that code 3 is for.
pub const LOADS: [&str; 5] = ["0", "1", "2", "3 segment", "3 page"];

/// What a completed LRA has loaded, and by which tables. Step 6 is for the segment-table length, step 15 for that of
/// the page table.
pub fn load(request: &Request, words: TableWords, answer: &Answer) -> Option<Load> {
    if column(request.first_halfword) != "LRA" || answer.ending.number() != 0 {
        return None;
    }
    let code = match answer.guest.condition_code() {
        3 if answer.at_step == 6 => "3 segment",
        code => ["0", "1", "2", "3 page"][code as usize],
    };
    let (real, virtual_format) = words.formats();
    Some((code, real, virtual_format))
}

fn format_words(format: Format) -> &'static str {
    match (format.pages_of_4k, format.segments_of_1m) {
        (false, false) => "2K, 64K",
        (false, true) => "2K, 1M",
        (true, false) => "4K, 64K",
        (true, true) => "4K, 1M",
    }
}

/// Whether DAT is on, and the format.
pub fn translation_words(request: &Request) -> &'static str {
    let guest = &request.guest;
    if !guest.dat_on() {
        return "DAT off";
    }
    match Format::of_control_register_0(guest.control_register_0) {
        None => "DAT on, wrong format",
        Some(Format { pages_of_4k: false, segments_of_1m: false }) => "DAT on, 2K, 64K",
        Some(Format { pages_of_4k: false, segments_of_1m: true }) => "DAT on, 2K, 1M",
        Some(Format { pages_of_4k: true, segments_of_1m: false }) => "DAT on, 4K, 64K",
        Some(Format { pages_of_4k: true, segments_of_1m: true }) => "DAT on, 4K, 1M",
    }
}

/// For SSK, ISK and RRB, the segment size that MICRSEG chooses; for LRA the page size too.
fn real_table_words(request: &Request, words: TableWords) -> Option<&'static str> {
    let format = words.real_format();
    let of_4k = |segments_of_1m| if segments_of_1m { "MICRSEG, 4K, 1M" } else { "MICRSEG, 4K, 64K" };
    match column(request.first_halfword) {
        "SSK" | "ISK" | "RRB" => Some(of_4k(format.segments_of_1m)),
        "LRA" if format.pages_of_4k => Some(of_4k(format.segments_of_1m)),
        "LRA" if format.segments_of_1m => Some("MICRSEG, 2K, 1M"),
        "LRA" => Some("MICRSEG, 2K, 64K"),
        _ => None,
    }
}

fn outcome_words((number, code_or_step): Outcome) -> String {
    match number {
        0 => "0 completed".into(),
        1 => format!("1 interruption {code_or_step}"),
        2 => "2 expanded".into(),
        3 => format!("3 not in storage, {code_or_step}"),
        9 => "9 PSW bit 12 or 15".into(),
        10 => "10 storage size".into(),
        11 => "11 number of keys".into(),
        12 => "12 odd address".into(),
        _ => "13 operation code".into(),
    }
}

fn count_words(count: u64) -> String {
    if count == 0 {
        "-".into()
    } else {
        count.to_string()
    }
}

fn table_line(title: &str, cells: &[String]) -> String {
    let mut line = format!("{title:25}");
    for cell in cells {
        line.push_str(&format!("{cell:>10}"));
    }
    line
}
