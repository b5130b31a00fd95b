//! One of the three files, and the file beside it that takes its new contents.

use std::fs::{self, File, Metadata, OpenOptions};
use std::io::{self, Read, Write};
use std::os::unix::fs::{fchown, MetadataExt, OpenOptionsExt};
use std::path::{Path, PathBuf};

use crate::command::Failure;

pub struct Lent {
    /// "storage", "keys" or "guest".
    role: &'static str,
    /// The file itself, symbolic links followed.
    path: PathBuf,
    /// `FILE.new`, in the same folder.
    new: PathBuf,
}

impl Lent {
    pub fn resolve(role: &'static str, given: &Path) -> Result<Lent, Failure> {
        let failed = |error| Failure::Error(format!("{role} file {}: {error}", given.display()));
        let path = given.canonicalize().map_err(failed)?;
        let mut new = path.clone().into_os_string();
        new.push(".new");
        let lent = Lent { role, path, new: new.into() };
        if !lent.metadata()?.is_file() {
            return Err(lent.failure("is not an ordinary file"));
        }
        Ok(lent)
    }

    /// Two of the three files may not be the same, nor one have the name for another's new contents.
    pub fn keep_apart(&self, other: &Lent) -> Result<(), Failure> {
        if is_same(&self.metadata()?, &other.metadata()?) {
            return Err(self.failure(&format!("is the same file as the {} file", other.role)));
        }
        for (one, another) in [(self, other), (other, self)] {
            if one.path == another.new {
                let clash = format!("has the name that the {} file's new contents would have", another.role);
                return Err(one.failure(&clash));
            }
        }
        Ok(())
    }

    /// Open the file and lock it, after waiting for another process that has it locked. That process may have
    /// put a new file in its place; then that one is to be locked.
    pub fn lock(&self) -> Result<File, Failure> {
        loop {
            let file = self.open()?;
            file.lock().map_err(|error| self.failure(&format!("can't be locked: {error}")))?;
            let locked = file.metadata().map_err(|error| self.failure(&error.to_string()))?;
            if is_same(&locked, &self.metadata()?) {
                return Ok(file);
            }
        }
    }

    /// For reading, and for writing too, though it is replaced and not written: what may not be written
    /// stays.
    pub fn open(&self) -> Result<File, Failure> {
        let opened = OpenOptions::new().read(true).write(true).open(&self.path);
        opened.map_err(|error| self.failure(&format!("can't be opened for reading and writing: {error}")))
    }

    /// All bytes of the opened file, of which there may be `most`.
    pub fn read(&self, mut file: &File, most: u64) -> Result<Vec<u8>, Failure> {
        let size = self.size()?;
        if size > most {
            return Err(self.failure(&format!("has {size} bytes; more than {most} are not read")));
        }
        let mut bytes = Vec::new();
        match file.read_to_end(&mut bytes) {
            Ok(_) => Ok(bytes),
            Err(error) => Err(self.failure(&format!("can't be read: {error}"))),
        }
    }

    pub fn size(&self) -> Result<u64, Failure> {
        Ok(self.metadata()?.len())
    }

    pub fn has_new(&self) -> Result<bool, Failure> {
        match fs::symlink_metadata(&self.new) {
            Ok(_) => Ok(true),
            Err(error) if error.kind() == io::ErrorKind::NotFound => Ok(false),
            Err(error) => Err(self.new_failure(&error.to_string())),
        }
    }

    /// The new contents that an earlier call left.
    pub fn read_new(&self, most: u64) -> Result<Vec<u8>, Failure> {
        let read = || {
            let found = fs::symlink_metadata(&self.new)?;
            match found.is_file() && found.len() <= most {
                true => fs::read(&self.new),
                false => Err(io::Error::other(format!("not an ordinary file of at most {most} bytes"))),
            }
        };
        read().map_err(|error| self.new_failure(&format!("can't be read: {error}")))
    }

    /// Write the new contents beside the file, with its owner and permission bits, and wait until they and
    /// the name are on the disk.
    pub fn write_new(&self, contents: &[u8]) -> Result<File, Failure> {
        let write = || {
            let old = fs::metadata(&self.path)?;
            let mut file = OpenOptions::new().write(true).create_new(true).mode(0o600).open(&self.new)?;
            file.write_all(contents)?;
            fchown(&file, Some(old.uid()), Some(old.gid())).map_err(owner_lost)?;
            file.set_permissions(old.permissions())?;
            file.sync_all()?;
            sync_folder(&self.new)?;
            Ok(file)
        };
        write().map_err(|error: io::Error| self.new_failure(&format!("can't be written: {error}")))
    }

    pub fn remove_new(&self) -> Result<(), Failure> {
        let removed = fs::remove_file(&self.new).and_then(|()| sync_folder(&self.new));
        removed.map_err(|error| self.new_failure(&format!("can't be removed: {error}")))
    }

    /// Let the new contents take the file's place.
    pub fn rename_new(&self) -> Result<(), Failure> {
        let renamed = fs::rename(&self.new, &self.path);
        renamed.map_err(|error| self.new_failure(&format!("can't be renamed: {error}")))
    }

    /// Wait until a renaming is on the disk.
    pub fn sync_renamed(&self) -> Result<(), Failure> {
        sync_folder(&self.path).map_err(|error| self.failure(&format!("its folder can't be synced: {error}")))
    }

    pub fn new_path(&self) -> &Path {
        &self.new
    }

    pub fn failure(&self, what: &str) -> Failure {
        Failure::Error(format!("{} file {}: {what}", self.role, self.path.display()))
    }

    pub fn new_failure(&self, what: &str) -> Failure {
        Failure::Error(format!("{}: {what}", self.new.display()))
    }

    fn metadata(&self) -> Result<Metadata, Failure> {
        fs::metadata(&self.path).map_err(|error| self.failure(&error.to_string()))
    }
}

fn owner_lost(error: io::Error) -> io::Error {
    io::Error::other(format!("the owner and group of the file can't be kept: {error}"))
}

fn is_same(one: &Metadata, other: &Metadata) -> bool {
    (one.dev(), one.ino()) == (other.dev(), other.ino())
}

fn sync_folder(path: &Path) -> io::Result<()> {
    File::open(path.parent().unwrap_or(path))?.sync_all()
}
