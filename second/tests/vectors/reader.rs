//! A small reader of the form in docs/VECTORS.md, which makes the calls and prints what must be printed. It
//! shares nothing with the writer but the attempt itself.

use second::{Answer, Guest, Request};

/// A call as the file gives it, with the storage and keys that it finds.
pub struct ReadCall<'a> {
    pub storage: &'a [u8],
    pub keys: &'a [u8],
    pub request: Request,
    /// Number of the `s` line since which the storage stands, from 1.
    pub storage_number: usize,
}

/// One byte after the other: CRC-32 by its definition, with a table for speed.
pub struct Crc([u32; 256]);

impl Crc {
    pub fn new() -> Crc {
        Crc(std::array::from_fn(|byte| {
            let step = |value: u32, _| (value >> 1) ^ (0xEDB8_8320 * (value & 1));
            (0..8).fold(byte as u32, step)
        }))
    }

    pub fn of(&self, parts: &[&[u8]]) -> u32 {
        let step = |state: u32, byte: &u8| (state >> 8) ^ self.0[usize::from(*byte ^ state as u8)];
        !parts.iter().flat_map(|part| part.iter()).fold(u32::MAX, step)
    }
}

fn hex(text: &str) -> u32 {
    assert!(text.bytes().all(|byte| byte.is_ascii_digit() || (b'a'..=b'f').contains(&byte)), "{text}");
    u32::from_str_radix(text, 16).expect("hexadecimal digits")
}

/// The fields of a line, which stand in these columns and nowhere else.
fn fields<'a>(line: &'a str, widths: &[usize]) -> Vec<&'a str> {
    let mut rest = &line[1..];
    let mut found = Vec::new();
    for &width in widths {
        assert!(rest.starts_with(' '), "{line}");
        found.push(&rest[1..=width]);
        rest = &rest[1 + width..];
    }
    assert_eq!(rest, "\n");
    found
}

/// What has been read so far.
struct Reader {
    crc: Crc,
    storage: Vec<u8>,
    keys: Vec<u8>,
    storages: usize,
    record: Option<Guest>,
    calls: usize,
    printed: String,
    ended: bool,
}

fn put(bytes: &mut [u8], line: &str, width: usize) {
    let fields = fields(line, &[6, width]);
    let (place, value) = (hex(fields[0]) as usize, hex(fields[1]).to_be_bytes());
    bytes[place..place + width / 2].copy_from_slice(&value[4 - width / 2..]);
}

fn guest(line: &str) -> Guest {
    let words: Vec<u32> = fields(line, &[8; 21]).into_iter().map(hex).collect();
    Guest {
        psw_0_31: words[0],
        psw_32_63: words[1],
        general_registers: std::array::from_fn(|number| words[2 + number]),
        control_register_0: words[18],
        control_register_1: words[19],
        control_register_6: words[20],
    }
}

fn record_bytes(guest: &Guest) -> Vec<u8> {
    let mut words = vec![guest.psw_0_31, guest.psw_32_63];
    words.extend(guest.general_registers);
    words.extend([guest.control_register_0, guest.control_register_1, guest.control_register_6]);
    words.iter().flat_map(|word| word.to_be_bytes()).collect()
}

impl Reader {
    fn new() -> Reader {
        Reader {
            crc: Crc::new(),
            storage: Vec::new(),
            keys: Vec::new(),
            storages: 0,
            record: None,
            calls: 0,
            printed: String::new(),
            ended: false,
        }
    }

    fn new_storage(&mut self, line: &str) {
        let sizes = fields(line, &[8, 8]);
        self.storage = vec![0; hex(sizes[0]) as usize];
        self.keys = vec![0; hex(sizes[1]) as usize];
        self.storages += 1;
    }

    fn call(&mut self, line: &str, sum: u32, visit: &mut dyn FnMut(&ReadCall, &Answer)) {
        let parts = fields(line, &[4, 1, 8]);
        assert_eq!(hex(parts[2]), sum, "{line}");
        let expanded = ["0", "1"].iter().position(|&flag| flag == parts[1]).expect("a flag") == 1;
        let guest = self.record.expect("a record comes before the first call");
        assert!(self.storages > 0, "a storage comes before the first call");
        let request = Request { guest, first_halfword: hex(parts[0]) as u16, expanded };
        let (storage_before, keys_before) = (self.storage.clone(), self.keys.clone());
        let answer = request.make(&mut self.storage, &mut self.keys);
        let found =
            ReadCall { storage: &storage_before, keys: &keys_before, request, storage_number: self.storages };
        visit(&found, &answer);
        self.calls += 1;
        let ending = answer.ending;
        self.printed.push_str(&format!(
            "{} {} {} {} {:06x} {:06x} {:08x}\n",
            self.calls,
            ending.number(),
            ending.code_or_step(),
            answer.references.len(),
            ending.logical_address(),
            answer.guest.psw_32_63 & 0x00FF_FFFF,
            self.crc.of(&[&self.storage, &self.keys, &record_bytes(&answer.guest)]),
        ));
    }

    /// One line; `summed` is what the checksum of an `a` or `e` line is for.
    fn line(&mut self, line: &str, summed: &[u8], visit: &mut dyn FnMut(&ReadCall, &Answer)) {
        assert!(!self.ended, "nothing follows the end");
        match &line[..1] {
            "#" => {
                assert_eq!(line.len(), 80);
                self.printed.push_str(line);
            }
            "s" => self.new_storage(line),
            "w" => put(&mut self.storage, line, 8),
            "b" => put(&mut self.storage, line, 2),
            "q" => put(&mut self.keys, line, 8),
            "k" => put(&mut self.keys, line, 2),
            "r" => self.record = Some(guest(line)),
            "a" => self.call(line, self.crc.of(&[summed]), visit),
            "e" => {
                let parts = fields(line, &[8, 8]);
                assert_eq!((hex(parts[0]) as usize, hex(parts[1])), (self.calls, self.crc.of(&[summed])));
                self.printed.push_str(&format!("{} calls\n", self.calls));
                self.ended = true;
            }
            other => panic!("unknown kind of line: {other}"),
        }
    }
}

/// Read the whole file; `visit` gets every call with its answer. Gives what must be printed.
pub fn read(file: &str, visit: &mut dyn FnMut(&ReadCall, &Answer)) -> String {
    let mut reader = Reader::new();
    // Where the text after the last `a` line starts, and where this line starts.
    let (mut start, mut place) = (0, 0);
    for line in file.split_inclusive('\n') {
        let end = place + line.len();
        // Up to and with the flag or the number: all but a space, eight digits and the line feed.
        reader.line(line, &file.as_bytes()[start..end - 10], visit);
        if line.starts_with('a') {
            start = end;
        }
        place = end;
    }
    assert!(reader.ended);
    reader.printed
}
