//! The file that is read as a trail: an ordinary one, whose length stays.

use std::fs::{self, File};
use std::io::{self, BufReader, Read, Seek, SeekFrom};
use std::path::{Path, PathBuf};

use crate::command::Failure;

/// Bytes that are read at a time.
const BUFFER: usize = 256 * 1_024;

pub struct Source {
    path: PathBuf,
    input: BufReader<File>,
    /// Bytes, when it was opened.
    pub length: u64,
}

impl Source {
    pub fn open(path: &Path) -> Result<Source, Failure> {
        let failed = |what: String| failure(path, &what);
        // Before it is opened: that would wait for the other end of a pipe.
        if !fs::metadata(path).map_err(|error| failed(error.to_string()))?.is_file() {
            return Err(failed("is not an ordinary file".into()));
        }
        let opened = File::open(path).and_then(|file| Ok((file.metadata()?.len(), file)));
        let (length, file) =
            opened.map_err(|error| failed(format!("can't be opened for reading: {error}")))?;
        Ok(Source { path: path.into(), input: BufReader::with_capacity(BUFFER, file), length })
    }

    /// Go on reading at this byte.
    pub fn seek(&mut self, offset: u64) -> Result<(), Failure> {
        let sought = self.input.seek(SeekFrom::Start(offset));
        sought.map(|_| ()).map_err(|error| self.unreadable(&error))
    }

    /// Leave out so many bytes.
    pub fn skip(&mut self, bytes: i64) -> Result<(), Failure> {
        self.input.seek_relative(bytes).map_err(|error| self.unreadable(&error))
    }

    /// The next bytes, which are in the file if its length is what it was.
    pub fn read<const N: usize>(&mut self) -> Result<[u8; N], Failure> {
        let mut bytes = [0; N];
        match self.input.read_exact(&mut bytes) {
            Ok(()) => Ok(bytes),
            Err(error) if error.kind() == io::ErrorKind::UnexpectedEof => {
                self.check_length()?;
                Err(self.unreadable(&error))
            }
            Err(error) => Err(self.unreadable(&error)),
        }
    }

    /// The length is still what it was.
    pub fn check_length(&self) -> Result<(), Failure> {
        let now = self.input.get_ref().metadata().map_err(|error| self.unreadable(&error))?.len();
        if now == self.length {
            return Ok(());
        }
        Err(self
            .failure(&format!("changed while it was read: it had {} bytes, and now has {now}", self.length)))
    }

    pub fn failure(&self, what: &str) -> Failure {
        failure(&self.path, what)
    }

    fn unreadable(&self, error: &io::Error) -> Failure {
        self.failure(&format!("can't be read: {error}"))
    }
}

fn failure(path: &Path, what: &str) -> Failure {
    Failure::Error(format!("trail file {}: {what}", path.display()))
}
