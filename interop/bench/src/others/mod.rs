//! What a program on Linux would take otherwise, for the scenarios that apply.
//! All work on a RAM disk, /dev/shm.

mod file;
#[cfg(lmdb)]
mod lmdb;
#[cfg(sqlite)]
mod sqlite;

use std::fs;
use std::io;
use std::path::{Path, PathBuf};

use layout::{FILE_BYTES, PAGE_BYTES};

/// Keeps a serial, an odometer's entries, and a file of 4,096 bytes.
pub trait Other {
    /// Stores the serial durably.
    fn serial(&mut self, serial: &[u8; 12]);
    /// The serial that is stored.
    fn stored_serial(&mut self) -> Vec<u8>;
    /// Appends eight entries of 8 bytes from this number on, and makes them
    /// durable.
    fn append(&mut self, first: usize, entries: &[[u8; 8]; 8]);
    /// Removes all entries, durably.
    fn clear(&mut self);
    /// The number of entries that are stored.
    fn entries(&mut self) -> usize;
    /// Replaces the file page by page, durably.
    fn fill(&mut self, bytes: &[u8; FILE_BYTES]);
    /// Reads the whole file, which [`Other::fill`] has stored.
    fn read(&mut self, buffer: &mut [u8; FILE_BYTES]);
}

/// A name, and what it names where it is there.
pub type Named = (&'static str, Option<Box<dyn Other>>);

/// All of them, each in a folder of its own below this one.
pub fn all(folder: &Path) -> io::Result<Vec<Named>> {
    let room = |name: &str| {
        let folder = folder.join(name);
        named(&folder, fs::create_dir(&folder))?;
        io::Result::Ok(folder)
    };
    Ok(vec![
        (
            "plain file: pwrite, fdatasync",
            Some(Box::new(file::Files::open(&room("file")?)?)),
        ),
        #[cfg(lmdb)]
        ("LMDB", Some(Box::new(lmdb::Lmdb::open(&room("lmdb")?)))),
        #[cfg(not(lmdb))]
        ("LMDB", None),
        #[cfg(sqlite)]
        (
            "SQLite",
            Some(Box::new(sqlite::Sqlite::open(&room("sqlite")?))),
        ),
        #[cfg(not(sqlite))]
        ("SQLite", None),
    ])
}

/// The pages of a file.
fn pages(bytes: &[u8; FILE_BYTES]) -> impl Iterator<Item = (usize, &[u8])> {
    bytes.chunks_exact(PAGE_BYTES).enumerate()
}

/// A folder on the RAM disk, removed at the end.
pub struct Room {
    /// The folder.
    pub folder: PathBuf,
}

impl Room {
    /// Makes a folder for this process.
    pub fn new() -> io::Result<Room> {
        Room::below(Path::new("/dev/shm"))
    }

    fn below(disk: &Path) -> io::Result<Room> {
        let folder = disk.join(format!("boxstore-bench-{}", std::process::id()));
        named(&folder, fs::create_dir(&folder))?;
        Ok(Room { folder })
    }
}

/// Puts the path into the text of an error.
fn named<T>(path: &Path, result: io::Result<T>) -> io::Result<T> {
    result.map_err(|error| io::Error::new(error.kind(), format!("{}: {error}", path.display())))
}

impl Drop for Room {
    fn drop(&mut self) {
        // What is left of it is on a RAM disk.
        let _ = fs::remove_dir_all(&self.folder);
    }
}

#[cfg(test)]
mod tests {
    use super::*;

    #[test]
    fn an_error_names_the_path() {
        let error = Room::below(Path::new("/dev/null")).map(drop).unwrap_err();
        let text = error.to_string();
        assert!(text.starts_with("/dev/null/boxstore-bench-"), "{text}");
    }
}
