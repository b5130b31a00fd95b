//! Where the records end in a file whose last 16 bytes are not its trailer: what may have become of it.

use super::checks::place;
use super::form::{start_of, word, Trailer, TrailerBytes, RECORD_BYTES, SEQUENCE, TRAILER_BYTES};
use super::progress::Progress;
use super::source::Source;
use crate::command::Failure;
use crate::words::counted;

/// How a trail file is made.
const SAVING: &str = "A buffer is to be saved up to and with its trailer, 128 times the records held \
                      plus 16 bytes, and not whole";

/// In words, which records stand in the file from its first byte on, and what stands after them.
pub fn told(source: &mut Source) -> Result<String, Failure> {
    source.seek(0)?;
    let mut progress = Progress::of_reading(source.length);
    let mut records = 0;
    loop {
        let left = source.length - start_of(records);
        if left < TRAILER_BYTES {
            return Ok(cut_short(records, left));
        }
        let head = source.read()?;
        if closes(&head, records) {
            return Ok(more_than_the_trail(records, source.length));
        }
        if left < RECORD_BYTES {
            return Ok(cut_short(records, left));
        }
        if u64::from(word(&head, SEQUENCE)) != records {
            return Ok(neither(records));
        }
        source.skip((RECORD_BYTES - TRAILER_BYTES) as i64)?;
        records += 1;
        progress.at(records);
    }
}

/// Whether these bytes, right after so many records, are a trailer for them.
pub fn closes(bytes: &TrailerBytes, records: u64) -> bool {
    let Trailer { distance, held, version, .. } = Trailer::of(bytes);
    version == 1 && u64::from(held) == records && u64::from(distance) == start_of(records)
}

/// The trailer stands right after so many records, but not at the end of the file.
pub fn more_than_the_trail(records: u64, length: u64) -> String {
    let (trailer, whole) = (start_of(records), start_of(records) + TRAILER_BYTES);
    format!(
        "A trailer of {} stands at {}, and {} after it. {SAVING}: here the first {whole} bytes",
        counted(records, "record"),
        place(trailer),
        counted(length - whole, "byte")
    )
}

/// So many bytes are left after the records: too few for another, and no trailer.
fn cut_short(records: u64, left: u64) -> String {
    let missing = match left {
        TRAILER_BYTES => return format!("{}, and the length is right for that number", found(records)),
        0..TRAILER_BYTES => TRAILER_BYTES - left,
        _ => RECORD_BYTES + TRAILER_BYTES - left,
    };
    let (more, missing) = (counted(left, "byte"), counted(missing, "byte"));
    format!("{}, and {more} more: the file is cut short by {missing} at least. {SAVING}", found(records))
}

fn neither(records: u64) -> String {
    let here = place(start_of(records));
    format!("{}; at {here} stands neither record {records} nor a trailer. {SAVING}", found(records))
}

fn found(records: u64) -> String {
    match records {
        0 => "No record is found".into(),
        1 => "Record 0 is found".into(),
        _ => format!("Records 0 to {} are found", records - 1),
    }
}
