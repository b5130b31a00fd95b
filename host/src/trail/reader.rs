//! A trail file, read record by record. Its trailer is read first, by seeking.

use std::path::Path;

use super::checks::{check_record, check_trailer, missing_trailer, Fault};
use super::ends;
use super::form::{RecordBytes, TrailRecord, Trailer, TRAILER_BYTES};
use super::source::Source;
use crate::command::Failure;

/// A trail with a sound trailer, and records that are found sound as they are read.
pub struct Trail {
    source: Source,
    pub trailer: Trailer,
    /// Records read.
    read: u32,
}

impl Trail {
    pub fn open(path: &Path) -> Result<Trail, Failure> {
        let mut source = Source::open(path)?;
        match read_trailer(&mut source)? {
            Ok(trailer) => {
                source.seek(0)?;
                Ok(Trail { source, trailer, read: 0 })
            }
            Err(fault) => {
                let found = ends::told(&mut source)?;
                Err(source.failure(&format!("{fault}. {found}")))
            }
        }
    }

    /// Bytes of the file.
    pub fn length(&self) -> u64 {
        self.source.length
    }

    /// The next record; after the last, none, if the file is still what it was.
    pub fn next(&mut self) -> Result<Option<TrailRecord>, Failure> {
        if self.read == self.trailer.held {
            return self.check_unchanged().map(|()| None);
        }
        let bytes = self.source.read()?;
        let record = TrailRecord::of(&bytes);
        check_record(&record, self.read).map_err(|fault| self.damaged(&fault, &bytes))?;
        self.read += 1;
        Ok(Some(record))
    }

    fn check_unchanged(&mut self) -> Result<(), Failure> {
        let trailer = Trailer::of(&self.source.read()?);
        self.source.check_length()?;
        match trailer == self.trailer {
            true => Ok(()),
            false => Err(self.source.failure("changed while it was read: its trailer is another now")),
        }
    }

    /// A record at fault may be the trailer of a later trail, in the buffer of an earlier one.
    fn damaged(&self, fault: &Fault, bytes: &RecordBytes) -> Failure {
        let (head, records) = (std::array::from_fn(|place| bytes[place]), self.read.into());
        self.source.failure(&match ends::closes(&head, records) {
            true => format!("{fault}. {}", ends::more_than_the_trail(records, self.source.length)),
            false => fault.to_string(),
        })
    }
}

/// The last 16 bytes, if they are a sound trailer.
fn read_trailer(source: &mut Source) -> Result<Result<Trailer, Fault>, Failure> {
    let Some(start) = source.length.checked_sub(TRAILER_BYTES) else {
        return Ok(Err(missing_trailer(source.length)));
    };
    source.seek(start)?;
    let trailer = Trailer::of(&source.read()?);
    Ok(check_trailer(&trailer, source.length).map(|()| trailer))
}
