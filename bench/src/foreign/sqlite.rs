//! The part of SQLite that the benchmark uses.

use std::ffi::{c_char, c_int, c_void, CStr, CString};
use std::ptr;
use std::rc::Rc;

#[repr(C)]
struct Database {
    _opaque: [u8; 0],
}

#[repr(C)]
struct Prepared {
    _opaque: [u8; 0],
}

extern "C" {
    fn sqlite3_libversion() -> *const c_char;
    fn sqlite3_open_v2(
        name: *const c_char,
        database: *mut *mut Database,
        flags: c_int,
        vfs: *const c_char,
    ) -> c_int;
    fn sqlite3_close(database: *mut Database) -> c_int;
    fn sqlite3_errmsg(database: *mut Database) -> *const c_char;
    fn sqlite3_prepare_v2(
        database: *mut Database,
        sql: *const c_char,
        length: c_int,
        statement: *mut *mut Prepared,
        tail: *mut *const c_char,
    ) -> c_int;
    fn sqlite3_finalize(statement: *mut Prepared) -> c_int;
    fn sqlite3_bind_parameter_count(statement: *mut Prepared) -> c_int;
    fn sqlite3_bind_int(statement: *mut Prepared, place: c_int, value: c_int) -> c_int;
    fn sqlite3_bind_blob(
        statement: *mut Prepared,
        place: c_int,
        bytes: *const c_void,
        length: c_int,
        destructor: *const c_void,
    ) -> c_int;
    fn sqlite3_step(statement: *mut Prepared) -> c_int;
    fn sqlite3_reset(statement: *mut Prepared) -> c_int;
    fn sqlite3_column_count(statement: *mut Prepared) -> c_int;
    fn sqlite3_column_blob(statement: *mut Prepared, column: c_int) -> *const c_void;
    fn sqlite3_column_bytes(statement: *mut Prepared, column: c_int) -> c_int;
}

// driver.c holds these to sqlite3.h.
const OK: c_int = 0;
const ROW: c_int = 100;
const DONE: c_int = 101;
/// To read, write and create, without a mutex: there is one thread.
const OPEN: c_int = 0x8006;

pub fn version() -> String {
    // SAFETY: SQLite gives a static string.
    let version = unsafe { CStr::from_ptr(sqlite3_libversion()) };
    version.to_string_lossy().into_owned()
}

/// A database of SQLite in memory.
struct Open(*mut Database);

impl Drop for Open {
    fn drop(&mut self) {
        // SAFETY: it was opened, and each statement, which keeps it, is finalised before.
        unsafe { sqlite3_close(self.0) };
    }
}

impl Open {
    fn good(&self, result: c_int, expected: &[c_int]) -> c_int {
        if !expected.contains(&result) {
            // SAFETY: the database is open; SQLite gives a string that stands until its next function.
            let message = unsafe { CStr::from_ptr(sqlite3_errmsg(self.0)) };
            panic!("SQLite: {}", message.to_string_lossy());
        }
        result
    }
}

pub struct Connection(Rc<Open>);

impl Connection {
    pub fn in_memory() -> Connection {
        let mut database = ptr::null_mut();
        // SAFETY: the name is a string of C, and the place is valid.
        let result =
            unsafe { sqlite3_open_v2(c":memory:".as_ptr(), &mut database, OPEN, ptr::null()) };
        let open = Open(database);
        open.good(result, &[OK]);
        Connection(Rc::new(open))
    }

    pub fn prepare(&self, sql: &str) -> Statement {
        let sql = CString::new(sql).expect("no zero byte in a statement");
        let mut raw = ptr::null_mut();
        // SAFETY: the database is open, the text ends with a zero byte, and the place is valid.
        let result =
            unsafe { sqlite3_prepare_v2((self.0).0, sql.as_ptr(), -1, &mut raw, ptr::null_mut()) };
        self.0.good(result, &[OK]);
        Statement {
            raw,
            // SAFETY: it was prepared just now.
            parameters: unsafe { sqlite3_bind_parameter_count(raw) } as usize,
            database: Rc::clone(&self.0),
        }
    }
}

/// A prepared statement. Its first parameter, if any, is an ISN, and the others are values.
pub struct Statement {
    raw: *mut Prepared,
    parameters: usize,
    database: Rc<Open>,
}

impl Statement {
    /// Runs a statement that has no parameter.
    pub fn run(&mut self) {
        assert_eq!(self.parameters, 0, "this statement has parameters");
        // SAFETY: it is prepared, and nothing is bound.
        self.database
            .good(unsafe { sqlite3_step(self.raw) }, &[DONE]);
        // SAFETY: it is prepared.
        unsafe { sqlite3_reset(self.raw) };
    }

    /// Runs it, writes the columns of the row it finds, if any, into the front of `record`, and gives how many bytes.
    pub fn run_with(&mut self, isn: u16, values: &[&[u8]], record: &mut [u8]) -> usize {
        // All are bound anew each time, so none of an earlier run, whose bytes may be gone, is looked at.
        assert_eq!(
            self.parameters,
            1 + values.len(),
            "parameters of a statement"
        );
        // SAFETY: it is prepared; the values live until it is reset, and SQLite does not keep them longer.
        unsafe {
            sqlite3_bind_int(self.raw, 1, c_int::from(isn));
            for (place, value) in (2..).zip(values) {
                let length = value.len() as c_int;
                sqlite3_bind_blob(self.raw, place, value.as_ptr().cast(), length, ptr::null());
            }
        }
        // SAFETY: as before.
        let found = self
            .database
            .good(unsafe { sqlite3_step(self.raw) }, &[ROW, DONE])
            == ROW;
        let written = if found { self.copy_row(record) } else { 0 };
        // SAFETY: it is prepared.
        unsafe { sqlite3_reset(self.raw) };
        written
    }

    fn copy_row(&self, record: &mut [u8]) -> usize {
        let mut at = 0;
        // SAFETY: the statement stands at a row; a blob of SQLite's is valid for its bytes until the next step.
        unsafe {
            for column in 0..sqlite3_column_count(self.raw) {
                let bytes = sqlite3_column_blob(self.raw, column).cast::<u8>();
                let length = sqlite3_column_bytes(self.raw, column) as usize;
                assert!(length <= record.len() - at, "a row of SQLite is too long");
                ptr::copy_nonoverlapping(bytes, record[at..].as_mut_ptr(), length);
                at += length;
            }
        }
        at
    }
}

impl Drop for Statement {
    fn drop(&mut self) {
        // SAFETY: it was prepared, and the database is still open.
        unsafe { sqlite3_finalize(self.raw) };
    }
}
