//! SQLite with journal_mode=WAL and synchronous=FULL: a commit is durable.

#![allow(unsafe_code)]

use std::ffi::{c_char, c_int, c_void, CStr, CString};
use std::os::unix::ffi::OsStrExt;
use std::path::Path;
use std::ptr;

use layout::{FILE_BYTES, PAGE_BYTES};

use super::{pages, Other};

enum Connection {}
enum Prepared {}

const ROW: c_int = 100;
const DONE: c_int = 101;

// SAFETY: as in sqlite3.h.
unsafe extern "C" {
    fn sqlite3_open(path: *const c_char, connection: *mut *mut Connection) -> c_int;
    fn sqlite3_close(connection: *mut Connection) -> c_int;
    fn sqlite3_exec(
        connection: *mut Connection,
        sql: *const c_char,
        callback: *const c_void,
        argument: *mut c_void,
        message: *mut *mut c_char,
    ) -> c_int;
    fn sqlite3_prepare_v2(
        connection: *mut Connection,
        sql: *const c_char,
        length: c_int,
        prepared: *mut *mut Prepared,
        tail: *mut *const c_char,
    ) -> c_int;
    fn sqlite3_bind_int64(prepared: *mut Prepared, index: c_int, value: i64) -> c_int;
    fn sqlite3_bind_blob(
        prepared: *mut Prepared,
        index: c_int,
        data: *const c_void,
        length: c_int,
        destructor: *const c_void,
    ) -> c_int;
    fn sqlite3_step(prepared: *mut Prepared) -> c_int;
    fn sqlite3_reset(prepared: *mut Prepared) -> c_int;
    fn sqlite3_column_blob(prepared: *mut Prepared, column: c_int) -> *const c_void;
    fn sqlite3_column_bytes(prepared: *mut Prepared, column: c_int) -> c_int;
    fn sqlite3_column_int64(prepared: *mut Prepared, column: c_int) -> i64;
    fn sqlite3_finalize(prepared: *mut Prepared) -> c_int;
}

fn check(code: c_int, expected: c_int) {
    assert_eq!(code, expected, "SQLite gave the code {code}");
}

const TABLES: &CStr = c"
    PRAGMA journal_mode = WAL;
    PRAGMA synchronous = FULL;
    CREATE TABLE serial (key INTEGER PRIMARY KEY, value BLOB);
    CREATE TABLE entry (key INTEGER PRIMARY KEY, value BLOB);
    CREATE TABLE page (key INTEGER PRIMARY KEY, value BLOB);
";

const STATEMENTS: [&CStr; 9] = [
    c"BEGIN IMMEDIATE",
    c"COMMIT",
    c"INSERT OR REPLACE INTO serial VALUES (?1, ?2)",
    c"INSERT INTO entry VALUES (?1, ?2)",
    c"INSERT OR REPLACE INTO page VALUES (?1, ?2)",
    c"DELETE FROM entry",
    c"SELECT value FROM page ORDER BY key",
    c"SELECT value FROM serial",
    c"SELECT count(*) FROM entry",
];

/// An open database, with its statements prepared.
pub struct Sqlite {
    connection: *mut Connection,
    statements: [*mut Prepared; STATEMENTS.len()],
}

impl Sqlite {
    /// Makes the database.
    pub fn open(folder: &Path) -> Sqlite {
        let path = folder.join("database");
        let path = CString::new(path.as_os_str().as_bytes()).expect("a path has no NUL");
        let mut connection = ptr::null_mut();
        let mut statements = [ptr::null_mut(); STATEMENTS.len()];
        // SAFETY: each call gets pointers to live variables and to texts that
        // end in NUL.
        unsafe {
            let code = sqlite3_open(path.as_ptr(), &mut connection);
            assert_eq!(code, 0, "SQLite gave the code {code} for {path:?}");
            let none = ptr::null_mut();
            let made = sqlite3_exec(
                connection,
                TABLES.as_ptr(),
                ptr::null(),
                none,
                ptr::null_mut(),
            );
            check(made, 0);
            for (prepared, sql) in statements.iter_mut().zip(STATEMENTS) {
                let tail = ptr::null_mut();
                check(
                    sqlite3_prepare_v2(connection, sql.as_ptr(), -1, prepared, tail),
                    0,
                );
            }
        }
        Sqlite {
            connection,
            statements,
        }
    }

    /// Carries out a statement without a result.
    fn run(&mut self, index: usize) {
        let prepared = self.statements[index];
        // SAFETY: the statement is live.
        unsafe {
            check(sqlite3_step(prepared), DONE);
            check(sqlite3_reset(prepared), 0);
        }
    }

    /// Puts one record.
    fn put(&mut self, index: usize, key: usize, value: &[u8]) {
        let prepared = self.statements[index];
        // SAFETY: the statement is live; the value is bound as static, and the
        // statement is done with it before this call ends.
        unsafe {
            check(sqlite3_bind_int64(prepared, 1, key as i64), 0);
            let (data, length) = (value.as_ptr().cast(), value.len() as c_int);
            check(sqlite3_bind_blob(prepared, 2, data, length, ptr::null()), 0);
        }
        self.run(index);
    }

    /// Copies the blobs of all rows into parts of the buffer.
    fn get(&mut self, index: usize, length: usize, buffer: &mut [u8]) {
        let prepared = self.statements[index];
        for part in buffer.chunks_exact_mut(length) {
            // SAFETY: the statement is live and has a row; its blob stays until
            // the next step.
            unsafe {
                check(sqlite3_step(prepared), ROW);
                let data: *const u8 = sqlite3_column_blob(prepared, 0).cast();
                let size = sqlite3_column_bytes(prepared, 0) as usize;
                part.copy_from_slice(std::slice::from_raw_parts(data, size));
            }
        }
        self.run(index);
    }
}

impl Drop for Sqlite {
    fn drop(&mut self) {
        // SAFETY: all are live, and not used after this.
        unsafe {
            for prepared in self.statements {
                sqlite3_finalize(prepared);
            }
            sqlite3_close(self.connection);
        }
    }
}

impl Other for Sqlite {
    fn serial(&mut self, serial: &[u8; 12]) {
        self.put(2, 0, serial);
    }

    fn stored_serial(&mut self) -> Vec<u8> {
        let mut serial = vec![0; 12];
        self.get(7, 12, &mut serial);
        serial
    }

    fn append(&mut self, first: usize, entries: &[[u8; 8]; 8]) {
        self.run(0);
        for (key, entry) in (first..).zip(entries) {
            self.put(3, key, entry);
        }
        self.run(1);
    }

    fn clear(&mut self) {
        self.run(5);
    }

    fn entries(&mut self) -> usize {
        let prepared = self.statements[8];
        // SAFETY: the statement is live and has a row.
        let count = unsafe {
            check(sqlite3_step(prepared), ROW);
            sqlite3_column_int64(prepared, 0)
        };
        self.run(8);
        count as usize
    }

    fn fill(&mut self, bytes: &[u8; FILE_BYTES]) {
        self.run(0);
        for (page, bytes) in pages(bytes) {
            self.put(4, page, bytes);
        }
        self.run(1);
    }

    fn read(&mut self, buffer: &mut [u8; FILE_BYTES]) {
        self.get(6, PAGE_BYTES, buffer);
    }
}
