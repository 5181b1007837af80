//! LMDB with its usual settings: a commit syncs the data and then the meta page.

#![allow(unsafe_code)]

use std::ffi::{c_char, c_int, c_uint, c_void, CString};
use std::os::unix::ffi::OsStrExt;
use std::path::Path;
use std::ptr;

use layout::{FILE_BYTES, PAGE_BYTES};

use super::{pages, Other};

#[repr(C)]
struct Value {
    size: usize,
    data: *mut c_void,
}

#[repr(C)]
#[derive(Default)]
struct Stat {
    page_size: c_uint,
    depth: c_uint,
    branch_pages: usize,
    leaf_pages: usize,
    overflow_pages: usize,
    entries: usize,
}

enum Env {}
enum Txn {}

const CREATE: c_uint = 0x4_0000;
const INTEGER_KEY: c_uint = 0x08;
const READ_ONLY: c_uint = 0x2_0000;
const APPEND: c_uint = 0x2_0000;

// SAFETY: as in lmdb.h.
unsafe extern "C" {
    fn mdb_env_create(env: *mut *mut Env) -> c_int;
    fn mdb_env_set_maxdbs(env: *mut Env, databases: c_uint) -> c_int;
    fn mdb_env_open(env: *mut Env, path: *const c_char, flags: c_uint, mode: c_uint) -> c_int;
    fn mdb_env_close(env: *mut Env);
    fn mdb_txn_begin(env: *mut Env, parent: *mut Txn, flags: c_uint, txn: *mut *mut Txn) -> c_int;
    fn mdb_txn_commit(txn: *mut Txn) -> c_int;
    fn mdb_txn_abort(txn: *mut Txn);
    fn mdb_txn_reset(txn: *mut Txn);
    fn mdb_txn_renew(txn: *mut Txn) -> c_int;
    fn mdb_dbi_open(txn: *mut Txn, name: *const c_char, flags: c_uint, dbi: *mut c_uint) -> c_int;
    fn mdb_put(
        txn: *mut Txn,
        dbi: c_uint,
        key: *mut Value,
        data: *mut Value,
        flags: c_uint,
    ) -> c_int;
    fn mdb_get(txn: *mut Txn, dbi: c_uint, key: *mut Value, data: *mut Value) -> c_int;
    fn mdb_drop(txn: *mut Txn, dbi: c_uint, delete: c_int) -> c_int;
    fn mdb_stat(txn: *mut Txn, dbi: c_uint, stat: *mut Stat) -> c_int;
}

fn check(code: c_int) {
    assert_eq!(code, 0, "LMDB gave the error {code}");
}

/// One environment with three databases, all with integers as keys.
pub struct Lmdb {
    env: *mut Env,
    reader: *mut Txn,
    serial: c_uint,
    entries: c_uint,
    pages: c_uint,
}

impl Lmdb {
    /// Makes the environment.
    pub fn open(folder: &Path) -> Lmdb {
        let path = CString::new(folder.as_os_str().as_bytes()).expect("a path has no NUL");
        let (mut env, mut txn, mut reader) = (ptr::null_mut(), ptr::null_mut(), ptr::null_mut());
        let mut databases = [0; 3];
        // SAFETY: each call gets pointers to live variables, and handles that
        // the calls before it gave.
        unsafe {
            check(mdb_env_create(&mut env));
            check(mdb_env_set_maxdbs(env, 3));
            let code = mdb_env_open(env, path.as_ptr(), 0, 0o600);
            assert_eq!(code, 0, "LMDB gave the error {code} for {path:?}");
            check(mdb_txn_begin(env, ptr::null_mut(), 0, &mut txn));
            let names = [c"serial", c"entries", c"pages"];
            for (database, name) in databases.iter_mut().zip(names) {
                let flags = CREATE | INTEGER_KEY;
                check(mdb_dbi_open(txn, name.as_ptr(), flags, database));
            }
            check(mdb_txn_commit(txn));
            check(mdb_txn_begin(env, ptr::null_mut(), READ_ONLY, &mut reader));
            mdb_txn_reset(reader);
        }
        let [serial, entries, pages] = databases;
        Lmdb {
            env,
            reader,
            serial,
            entries,
            pages,
        }
    }

    /// Puts records, in one transaction.
    fn put<'a>(
        &mut self,
        database: c_uint,
        flags: c_uint,
        records: impl Iterator<Item = (usize, &'a [u8])>,
    ) {
        let mut txn = ptr::null_mut();
        // SAFETY: the environment is open; LMDB copies the key and the data
        // before the call ends, and writes to neither.
        unsafe {
            check(mdb_txn_begin(self.env, ptr::null_mut(), 0, &mut txn));
            for (key, data) in records {
                let mut key_value = Value {
                    size: size_of::<usize>(),
                    data: (&raw const key).cast_mut().cast(),
                };
                let mut data_value = Value {
                    size: data.len(),
                    data: data.as_ptr().cast_mut().cast(),
                };
                check(mdb_put(
                    txn,
                    database,
                    &mut key_value,
                    &mut data_value,
                    flags,
                ));
            }
            check(mdb_txn_commit(txn));
        }
    }

    /// Copies records into parts of the buffer, in one transaction.
    fn get(&mut self, database: c_uint, length: usize, buffer: &mut [u8]) {
        // SAFETY: the reader was reset, and is renewed; the data that a get
        // points to stay until it is reset again.
        unsafe {
            check(mdb_txn_renew(self.reader));
            for (key, part) in buffer.chunks_exact_mut(length).enumerate() {
                let mut key_value = Value {
                    size: size_of::<usize>(),
                    data: (&raw const key).cast_mut().cast(),
                };
                let mut data = Value {
                    size: 0,
                    data: ptr::null_mut(),
                };
                check(mdb_get(self.reader, database, &mut key_value, &mut data));
                part.copy_from_slice(std::slice::from_raw_parts(data.data.cast(), data.size));
            }
            mdb_txn_reset(self.reader);
        }
    }
}

impl Drop for Lmdb {
    fn drop(&mut self) {
        // SAFETY: both are live, and not used after this.
        unsafe {
            mdb_txn_abort(self.reader);
            mdb_env_close(self.env);
        }
    }
}

impl Other for Lmdb {
    fn serial(&mut self, serial: &[u8; 12]) {
        self.put(self.serial, 0, [(0, &serial[..])].into_iter());
    }

    fn stored_serial(&mut self) -> Vec<u8> {
        let mut serial = vec![0; 12];
        self.get(self.serial, 12, &mut serial);
        serial
    }

    fn append(&mut self, first: usize, entries: &[[u8; 8]; 8]) {
        let records = (first..).zip(entries.iter().map(|entry| &entry[..]));
        self.put(self.entries, APPEND, records);
    }

    fn clear(&mut self) {
        let mut txn = ptr::null_mut();
        // SAFETY: the environment is open.
        unsafe {
            check(mdb_txn_begin(self.env, ptr::null_mut(), 0, &mut txn));
            check(mdb_drop(txn, self.entries, 0));
            check(mdb_txn_commit(txn));
        }
    }

    fn entries(&mut self) -> usize {
        let mut stat = Stat::default();
        // SAFETY: the reader is renewed, and `stat` has the layout of MDB_stat.
        unsafe {
            check(mdb_txn_renew(self.reader));
            check(mdb_stat(self.reader, self.entries, &mut stat));
            mdb_txn_reset(self.reader);
        }
        stat.entries
    }

    fn fill(&mut self, bytes: &[u8; FILE_BYTES]) {
        self.put(self.pages, 0, pages(bytes));
    }

    fn read(&mut self, buffer: &mut [u8; FILE_BYTES]) {
        self.get(self.pages, PAGE_BYTES, buffer);
    }
}
