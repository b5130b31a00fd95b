//! The three files of a call, written so that a crash loses nothing.
//!
//! A completed call is written in this order, each step on the disk before the next begins:
//!
//! 1. storage.new, keys.new and guest.new are written;
//! 2. storage.new takes the place of storage: with this one step the call has happened;
//! 3. keys.new takes the place of keys, then guest.new that of guest.
//!
//! Any other ending leaves storage and guest as they were, and of the keys all but reference bits that were
//! recorded. If there are such bits, they are written in the same order, but storage.new is empty, is removed
//! in step 2, and there is no guest.new.
//!
//! So, if a call was cut short: while storage.new is there it hasn't happened, and what is left of it is
//! removed, storage.new last, for without it the others would mean something else. If only one of the others
//! is there, the call has happened, and step 3 is finished. All the while storage is locked, and storage.new
//! too where it becomes storage: so no other `vma attempt` on it takes a call that is being written for one
//! that was cut short.

use std::fs::File;

use super::guest_file;
use super::lent::Lent;
use super::options::Options;
use crate::changes::State;
use crate::command::{say, Failure};

/// The most bytes of storage or keys that are read: 1 MiB over the largest storage that a call takes.
const MOST_BYTES: u64 = 17 * 1_024 * 1_024;

/// The most bytes of a guest's record as text.
const MOST_TEXT: u64 = 65_536;

pub struct Files {
    storage: Lent,
    keys: Lent,
    guest: Lent,
    /// Storage, open and locked.
    locked: File,
}

/// What a start finds.
pub enum Start {
    /// The files, with nothing left of an earlier call.
    Ready(Files),
    /// An earlier call, now finished.
    Finished,
}

impl Files {
    pub fn open(options: &Options) -> Result<Start, Failure> {
        let storage = Lent::resolve("storage", &options.storage)?;
        let keys = Lent::resolve("keys", &options.keys)?;
        let guest = Lent::resolve("guest", &options.guest)?;
        storage.keep_apart(&keys)?;
        storage.keep_apart(&guest)?;
        keys.keep_apart(&guest)?;
        let locked = storage.lock()?;
        Files { storage, keys, guest, locked }.settled()
    }

    /// Undo or finish what an earlier call left.
    fn settled(self) -> Result<Start, Failure> {
        let mut left = Vec::new();
        for file in self.in_order() {
            if file.has_new()? {
                left.push(file.new_path().display().to_string());
            }
        }
        if left.is_empty() {
            return Ok(Start::Ready(self));
        }
        let left = left.join(", ");
        if self.storage.has_new()? {
            self.remove_new()?;
            say(&format!("an earlier call was cut short before it happened; removed what it left: {left}"));
            return Ok(Start::Ready(self));
        }
        self.check_left()?;
        self.finish().map_err(|failure| self.unfinished(failure))?;
        say(&format!(
            "an earlier call had happened, but was cut short before its files were all in place. It is now \
             finished, with {left}. Nothing else was done: this call was not made"
        ));
        Ok(Start::Finished)
    }

    pub fn read(&self) -> Result<State, Failure> {
        let storage = self.storage.read(&self.locked, MOST_BYTES)?;
        let keys = self.keys.read(&self.keys.open()?, MOST_BYTES)?;
        let text = self.guest.read(&self.guest.open()?, MOST_TEXT)?;
        let record = guest_file::parse(&text).map_err(|what| self.guest.failure(&what))?;
        Ok(State { storage, keys, record })
    }

    /// Write all three anew.
    pub fn replace(&self, state: &State) -> Result<(), Failure> {
        let text = guest_file::text(&state.record);
        let written = self.storage.write_new(&state.storage).and_then(|storage| {
            self.keys.write_new(&state.keys)?;
            self.guest.write_new(text.as_bytes())?;
            storage.lock().map_err(|error| self.storage.new_failure(&format!("can't be locked: {error}")))?;
            self.storage.rename_new()?;
            Ok(storage)
        });
        self.concluded(written)
    }

    /// Write the keys anew; storage and guest stay as they are.
    pub fn replace_keys(&self, keys: &[u8]) -> Result<(), Failure> {
        let written = self.storage.write_new(&[]).and_then(|_| {
            self.keys.write_new(keys)?;
            self.storage.remove_new()
        });
        self.concluded(written)
    }

    /// Finish a call if it has happened, and undo it if it could not; what is written may be locked till then.
    fn concluded<T>(&self, written: Result<T, Failure>) -> Result<(), Failure> {
        match written {
            Ok(_locked) => self.finish().map_err(|failure| self.unfinished(failure)),
            Err(failure) => Err(match self.remove_new() {
                Ok(()) => failure.and("nothing was changed"),
                Err(more) => failure.and(&format!("nothing was changed; {}", more.message())),
            }),
        }
    }

    /// Remove what hasn't taken effect: storage.new last.
    fn remove_new(&self) -> Result<(), Failure> {
        for file in self.in_order().into_iter().rev() {
            if file.has_new()? {
                file.remove_new()?;
            }
        }
        Ok(())
    }

    /// The call has happened; let new keys and guest take their places, unless they have.
    fn finish(&self) -> Result<(), Failure> {
        self.storage.sync_renamed()?;
        for file in [&self.keys, &self.guest] {
            if file.has_new()? {
                file.rename_new()?;
            }
            file.sync_renamed()?;
        }
        Ok(())
    }

    /// What a failure to finish means. If nothing is left, the same command would make another call.
    fn unfinished(&self, failure: Failure) -> Failure {
        let left = [&self.keys, &self.guest].into_iter().any(|file| file.has_new().unwrap_or(true));
        failure.and(match left {
            true => "the call has happened; give the same command again to finish writing its files",
            false => "the call has happened and its files are in place, but may not be on the disk yet",
        })
    }

    /// What is to be finished must be what a call leaves, and no file that only has such a name.
    fn check_left(&self) -> Result<(), Failure> {
        if self.keys.has_new()? {
            let (new, old) = (self.keys.read_new(MOST_BYTES)?.len() as u64, self.keys.size()?);
            if new != old {
                let what = format!("not left by a call: it has {new} bytes, and the keys file has {old}");
                return Err(self.keys.new_failure(&what));
            }
        }
        if self.guest.has_new()? {
            let parsed = guest_file::parse(&self.guest.read_new(MOST_TEXT)?);
            parsed.map_err(|what| self.guest.new_failure(&format!("not left by a call: {what}")))?;
        }
        Ok(())
    }

    fn in_order(&self) -> [&Lent; 3] {
        [&self.storage, &self.keys, &self.guest]
    }
}
