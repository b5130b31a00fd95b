//! What is printed for the eight calls: what each writing call gives, refusals and edges, then the buffer.

use super::{entries, BUFFER_LENGTH, UNUSED};
use crate::trail::{start, write, Entry, Written, RECORD_LENGTH, TRAILER_LENGTH};

/// Room for one record.
const ONE_RECORD: usize = RECORD_LENGTH + TRAILER_LENGTH;
/// The least number whose distance is over 4,294,967,295; modulo 2^32 that distance is zero.
const WRAPPED: u32 = 0x0200_0000;

/// All lines.
pub fn text() -> String {
    let entries = entries();
    let mut buffer = [UNUSED; BUFFER_LENGTH];
    let mut written = start(&mut buffer);
    let mut lines = vec![format!("start: {}", with_trailer(written, &buffer))];
    for (number, entry) in (1..).zip(&entries) {
        written = write(&mut buffer, written.held, entry);
        lines.push(format!("call {number}, {}; {}", call_words(entry), with_trailer(written, &buffer)));
    }
    let [.., last] = &entries;
    lines.extend(refusals(&mut buffer, last));
    lines.extend(lengths(last));
    lines.extend(trailers(last));
    lines.push(more_room(last));
    lines.extend(dump(&buffer));
    lines.join("\n")
}

/// Wrong numbers in the full trail, and buffers that are too short.
fn refusals(buffer: &mut [u8], last: &Entry) -> Vec<String> {
    let mut lines = Vec::new();
    for given in [4, 6, u32::MAX] {
        lines.push(format!("given {given}: {}", written_words(write(buffer, given, last))));
    }
    lines.push(format!("in 15 bytes: {}", written_words(write(&mut buffer[..15], 5, last))));
    lines.push(format!("start in 15 bytes: {}", written_words(start(&mut buffer[..15]))));
    lines
}

/// One writing call in trails of their own.
fn lengths(last: &Entry) -> Vec<String> {
    let line = |length: usize| {
        let mut buffer = vec![UNUSED; length];
        let held = start(&mut buffer).held;
        let written = write(&mut buffer, held, last);
        format!("{length} bytes: {}", with_trailer(written, &buffer))
    };
    [TRAILER_LENGTH, ONE_RECORD - 1, ONE_RECORD].map(line).into()
}

/// The turned-away number's ceiling, and trailers that are refused: all at the front of buffers without more room.
fn trailers(last: &Entry) -> Vec<String> {
    let line = |name: &str, given: u32, buffer: &mut [u8]| {
        let written = write(buffer, given, last);
        format!("{name}: {}", with_trailer_at(0, written, buffer))
    };
    let mut nearly = trailer_bytes([0, 0, 0xFFFF_FFFE, 1]);
    vec![
        line("nearly", 0, &mut nearly),
        line("ceiling", 0, &mut nearly),
        line("other version", 0, &mut trailer_bytes([0, 0, 0, 2])),
        line("other distance", 0, &mut trailer_bytes([0x80, 0, 0, 1])),
        line("other number", 0, &mut trailer_bytes([0, 1, 0, 1])),
        line("wrapped", WRAPPED, &mut trailer_bytes([0, WRAPPED, 0, 1])),
    ]
}

/// Turned away for want of one byte, then with that byte too.
fn more_room(last: &Entry) -> String {
    let mut buffer = [UNUSED; ONE_RECORD];
    let short = &mut buffer[..ONE_RECORD - 1];
    start(short);
    write(short, 0, last);
    let written = write(&mut buffer, 0, last);
    format!("more room: {}", with_trailer(written, &buffer))
}

fn trailer_bytes(numbers: [u32; 4]) -> Vec<u8> {
    numbers.into_iter().flat_map(u32::to_be_bytes).collect()
}

fn call_words(entry: &Entry) -> String {
    format!(
        "guest {}, {:04X}: ending {}, code {}, count {}, next {:06X}, translation {:06X}",
        entry.guest_number,
        entry.first_halfword,
        entry.ending,
        entry.code_or_step,
        entry.count,
        entry.next_address,
        entry.translation_address,
    )
}

fn written_words(written: Written) -> String {
    format!("refusal {}, held {}", written.refusal, written.held)
}

/// With the trailer at 128 times the number handed back.
fn with_trailer(written: Written, buffer: &[u8]) -> String {
    with_trailer_at(RECORD_LENGTH * written.held as usize, written, buffer)
}

fn with_trailer_at(place: usize, written: Written, buffer: &[u8]) -> String {
    let trailer = buffer.iter().skip(place).take(TRAILER_LENGTH).copied().collect::<Vec<u8>>();
    format!("{}, trailer {}", written_words(written), hex_words(&trailer))
}

/// 32 bytes to a line.
fn dump(buffer: &[u8]) -> Vec<String> {
    let line = |(number, bytes)| format!("{:06X}: {}", 32 * number, hex_words(bytes));
    (0usize..).zip(buffer.chunks(32)).map(line).collect()
}

fn hex_words(bytes: &[u8]) -> String {
    let hex = |word: &[u8]| word.iter().map(|byte| format!("{byte:02X}")).collect::<String>();
    bytes.chunks(4).map(hex).collect::<Vec<_>>().join(" ")
}
