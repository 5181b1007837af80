//! Plain files, with pwrite and fdatasync. A write that the power interrupts may
//! be torn: the file is then neither old nor new.

use std::fs::{File, OpenOptions};
use std::io;
use std::os::unix::fs::FileExt;
use std::path::Path;

use layout::{FILE_BYTES, PAGE_BYTES};

use super::{named, pages, Other};

/// Three open files.
pub struct Files {
    serial: File,
    entries: File,
    file: File,
}

impl Files {
    /// Makes the files.
    pub fn open(folder: &Path) -> io::Result<Files> {
        let open = |name: &str| {
            let path = folder.join(name);
            let file = OpenOptions::new()
                .read(true)
                .write(true)
                .create_new(true)
                .open(&path);
            named(&path, file)
        };
        Ok(Files {
            serial: open("serial")?,
            entries: open("entries")?,
            file: open("file")?,
        })
    }
}

const WORKS: &str = "/dev/shm takes it";

impl Other for Files {
    fn serial(&mut self, serial: &[u8; 12]) {
        self.serial.write_all_at(serial, 0).expect(WORKS);
        self.serial.sync_data().expect(WORKS);
    }

    fn stored_serial(&mut self) -> Vec<u8> {
        let mut serial = vec![0; 12];
        self.serial.read_exact_at(&mut serial, 0).expect(WORKS);
        serial
    }

    fn append(&mut self, first: usize, entries: &[[u8; 8]; 8]) {
        for (number, entry) in (first as u64..).zip(entries) {
            self.entries.write_all_at(entry, 8 * number).expect(WORKS);
        }
        self.entries.sync_data().expect(WORKS);
    }

    fn clear(&mut self) {
        self.entries.set_len(0).expect(WORKS);
        self.entries.sync_data().expect(WORKS);
    }

    fn entries(&mut self) -> usize {
        self.entries.metadata().expect(WORKS).len() as usize / 8
    }

    fn fill(&mut self, bytes: &[u8; FILE_BYTES]) {
        for (page, bytes) in pages(bytes) {
            let position = (PAGE_BYTES * page) as u64;
            self.file.write_all_at(bytes, position).expect(WORKS);
        }
        self.file.sync_data().expect(WORKS);
    }

    fn read(&mut self, buffer: &mut [u8; FILE_BYTES]) {
        self.file.read_exact_at(buffer, 0).expect(WORKS);
    }
}
