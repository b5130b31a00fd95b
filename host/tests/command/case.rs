//! A folder with the three files of a call, and what a run of the program gives.

use std::fs;
use std::path::{Path, PathBuf};
use std::process::{Command, Output};
use std::sync::atomic::{AtomicU32, Ordering};

pub const PROGRAM: &str = env!("CARGO_BIN_EXE_vma");

/// What a run gives.
#[derive(Debug)]
pub struct Run {
    pub status: Option<i32>,
    pub output: String,
    pub messages: String,
}

/// Run `vma` with these words.
pub fn vma(words: &[&str]) -> Run {
    run(Command::new(PROGRAM).args(words))
}

pub fn run(command: &mut Command) -> Run {
    let Output { status, stdout, stderr } = command.output().expect("the program starts");
    Run {
        status: status.code(),
        output: String::from_utf8(stdout).expect("text"),
        messages: String::from_utf8(stderr).expect("text"),
    }
}

/// A call in files, all in a folder of their own that is removed at the end.
pub struct Case {
    pub folder: PathBuf,
    pub first: &'static str,
    pub expanded: bool,
}

/// Every file of a folder: name, contents, time of modification, permission bits.
pub type Snapshot = Vec<(String, Vec<u8>, std::time::SystemTime, fs::Permissions)>;

static CASES: AtomicU32 = AtomicU32::new(0);

impl Case {
    /// Files with this storage, as many zero keys as it needs, and this record.
    pub fn new(first: &'static str, storage: &[u8], record: &[u32; 21]) -> Case {
        let number = CASES.fetch_add(1, Ordering::Relaxed);
        let name = format!("case-{}-{number}", std::process::id());
        let folder = Path::new(env!("CARGO_TARGET_TMPDIR")).join(name);
        fs::create_dir_all(&folder).expect("a folder");
        let case = Case { folder, first, expanded: false };
        case.write("storage", storage);
        case.write("keys", &vec![0; storage.len() / 2048]);
        case.write("guest", text(record).as_bytes());
        case
    }

    pub fn path(&self, name: &str) -> PathBuf {
        self.folder.join(name)
    }

    pub fn write(&self, name: &str, contents: &[u8]) {
        fs::write(self.path(name), contents).expect("written");
    }

    pub fn read(&self, name: &str) -> Vec<u8> {
        fs::read(self.path(name)).expect("read")
    }

    /// The words of the guest file.
    pub fn record(&self) -> Vec<u32> {
        let text = String::from_utf8(self.read("guest")).expect("text");
        let code = text.lines().map(|line| line.split('#').next().unwrap_or(""));
        let words =
            code.flat_map(str::split_whitespace).map(|word| u32::from_str_radix(word, 16).expect("hex"));
        words.collect()
    }

    /// `vma attempt` on the three files.
    pub fn command(&self) -> Command {
        let mut command = Command::new(PROGRAM);
        command.args(self.words());
        command
    }

    pub fn words(&self) -> Vec<String> {
        let mut words = vec!["attempt".to_string()];
        for name in ["storage", "keys", "guest"] {
            words.push(format!("--{name}"));
            words.push(self.path(name).to_str().expect("text").into());
        }
        words.extend(["--first".into(), self.first.into()]);
        words.extend(self.expanded.then(|| "--expanded".to_string()));
        words
    }

    pub fn run(&self) -> Run {
        run(&mut self.command())
    }

    pub fn snapshot(&self) -> Snapshot {
        let mut files = Vec::new();
        for entry in fs::read_dir(&self.folder).expect("a folder") {
            let entry = entry.expect("an entry");
            let about = entry.metadata().expect("metadata");
            let contents = if about.is_file() { fs::read(entry.path()).expect("read") } else { Vec::new() };
            let name = entry.file_name().into_string().expect("text");
            files.push((name, contents, about.modified().expect("a time"), about.permissions()));
        }
        files.sort_by(|one, other| one.0.cmp(&other.0));
        files
    }

    /// The names in the folder.
    pub fn names(&self) -> Vec<String> {
        self.snapshot().into_iter().map(|file| file.0).collect()
    }
}

impl Drop for Case {
    fn drop(&mut self) {
        let _ = fs::remove_dir_all(&self.folder);
    }
}

/// A record as text, one word to a line.
pub fn text(record: &[u32; 21]) -> String {
    record.iter().map(|word| format!("{word:08x}\n")).collect()
}

/// Zeros, with some bytes put at their addresses.
pub fn storage(size: usize, places: &[(usize, &[u8])]) -> Vec<u8> {
    let mut storage = vec![0; size];
    for (address, bytes) in places {
        storage[*address..address + bytes.len()].copy_from_slice(bytes);
    }
    storage
}

/// A record: EC mode and problem state, instruction at 001000, MICBLOK at 000400, register 2 1FF0.
pub fn record() -> [u32; 21] {
    let mut record = [0; 21];
    record[0] = 0x0009_0000;
    record[1] = 0x0000_1000;
    record[2 + 2] = 0x5A00_1FF0;
    record[20] = 0x8000_0400;
    record
}

/// MICCREG 000500, MICVPSW 000600; virtual control register 0 with bit 0 alone.
pub const MICCREG: (usize, &[u8]) = (0x404, &[0, 0, 5, 0]);
pub const MICVPSW: (usize, &[u8]) = (0x408, &[0, 0, 6, 0]);
pub const REGISTER_0: (usize, &[u8]) = (0x500, &[0x80, 0, 0, 0]);

/// The second halfword: base 2, displacement 010, so that the operand is at 002000.
pub const SECOND_HALFWORD: (usize, &[u8]) = (0x1002, &[0x20, 0x10]);

/// SSM in 16 KiB: virtual PSW in the EC mode, old mask 04, new mask as given.
pub fn ssm(new: u8) -> Case {
    let places: [(usize, &[u8]); 6] =
        [MICCREG, MICVPSW, REGISTER_0, SECOND_HALFWORD, (0x600, &[0x04, 0x08]), (0x2000, &[new])];
    Case::new("8000", &storage(0x4000, &places), &record())
}

/// SSM in 16 MiB, refused because virtual control register 0 has bit 1: two fetches from block 0. There are 8,192
/// keys.
pub fn refused_in_16_mebibytes() -> Case {
    let places: [(usize, &[u8]); 2] = [MICCREG, (0x500, &[0x40, 0, 0, 0])];
    Case::new("8000", &storage(0x100_0000, &places), &record())
}

/// The real tables of address 023000, whose page is in frame 001, and its swap word; then what a case has of its own.
fn paged(swap_word: &[u8; 4], own: &[(usize, &[u8])]) -> Vec<u8> {
    let tables: [(usize, &[u8]); 5] = [
        (0x400, &[0, 0, 8, 0]), // MICRSEG: segment table at 000800, length 0, 64K segments
        (0x808, &[0xF0, 0, 0x0C, 0x10]), // segment 2: page table at 000C10, length 15
        (0xC0C, &[0, 0, 0x0D, 0]), // swap table at 000D00
        (0xC16, &[0x00, 0x10]), // page 3: frame 001, valid
        (0xD18, swap_word),
    ];
    storage(0x4000, &[&tables, own].concat())
}

/// A record for SSK or ISK 3,4 of address 023000, R1 low byte 3F.
fn key_record() -> [u32; 21] {
    let mut record = record();
    record[2 + 3] = 0xABCD_EF3F;
    record[2 + 4] = 0x5A02_3000;
    record
}

/// SSK 3,4 of address 023000 in frame 001000, R1 low byte 3F; key 04 in block 2.
pub fn ssk() -> Case {
    let case = Case::new("0834", &paged(&[0; 4], &[]), &key_record());
    case.write("keys", &[0, 0, 0x04, 0, 0, 0, 0, 0]);
    case
}

/// ISK 3,4 of the same address; the virtual key is AD, the real key 53, the virtual PSW in the EC mode.
pub fn isk() -> Case {
    let own: [(usize, &[u8]); 2] = [MICVPSW, (0x600, &[0x00, 0x08])];
    let case = Case::new("0934", &paged(&[0x5A, 0xC3, 0xAD, 0x53], &own), &key_record());
    case.write("keys", &[0, 0, 0x53, 0, 0, 0, 0, 0]);
    case
}

/// RRB of the same address, in frame 002; the virtual key is FD, the real key FB; condition code 1, program mask A.
pub fn rrb() -> Case {
    let own: [(usize, &[u8]); 2] = [SECOND_HALFWORD, (0xC16, &[0x00, 0x20])];
    let mut record = record();
    record[0] = 0x0009_1A00;
    record[2 + 2] = 0x5A02_2FF0; // and displacement 010: 023000
    let case = Case::new("B213", &paged(&[0x50, 0xC3, 0xFD, 0xFF], &own), &record);
    case.write("keys", &[0, 0, 0, 0, 0xFB, 0, 0, 0]);
    case
}

/// LRA 3,010(0,2) of address 012345; condition code 1, program mask A. The guest's segment table is at 002100 and its
/// page table at 002180, in a page that the real tables have in frame 002.
pub fn lra() -> Case {
    let places: [(usize, &[u8]); 8] = [
        (0x400, &[0, 0, 8, 0, 0, 0, 5, 0]), // MICRSEG: segment table at 000800; MICCREG
        (0x500, &[0x00, 0x80, 0, 0]),       // virtual control register 0: 4K pages, 64K segments
        (0x504, &[0, 0, 0x21, 0]),          // virtual control register 1: length 0
        (0x800, &[0xF0, 0, 0x0C, 0x10]),    // segment 0: page table at 000C10, length 15
        (0xC14, &[0x00, 0x20]),             // page 2: frame 002
        SECOND_HALFWORD,
        (0x2104, &[0x20, 0, 0x21, 0x80]), // segment 1
        (0x2184, &[0x78, 0x90]),          // page 2: the guest's frame 789
    ];
    let mut record = record();
    record[0] = 0x0009_1A00;
    record[2 + 2] = 0x5A01_2335;
    record[2 + 3] = 0xABCD_EF3F;
    Case::new("B130", &storage(0x4000, &places), &record)
}
