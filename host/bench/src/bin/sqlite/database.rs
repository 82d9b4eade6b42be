//! The few functions of SQLite's C library that are used here, and a database and statements over them. Whatever is not
//! expected of them ends the program.

use std::ffi::{c_char, c_int, c_void, CStr, CString};
use std::ptr::{null, null_mut};

extern "C" {
    fn sqlite3_libversion() -> *const c_char;
    fn sqlite3_open_v2(
        name: *const c_char,
        to: *mut *mut c_void,
        flags: c_int,
        vfs: *const c_char,
    ) -> c_int;
    fn sqlite3_close(database: *mut c_void) -> c_int;
    fn sqlite3_errmsg(database: *mut c_void) -> *const c_char;
    fn sqlite3_exec(
        database: *mut c_void,
        text: *const c_char,
        called: *const c_void,
        with: *mut c_void,
        said: *mut *mut c_char,
    ) -> c_int;
    fn sqlite3_prepare_v2(
        database: *mut c_void,
        text: *const c_char,
        length: c_int,
        to: *mut *mut c_void,
        rest: *mut *const c_char,
    ) -> c_int;
    fn sqlite3_bind_int64(statement: *mut c_void, at: c_int, value: i64) -> c_int;
    fn sqlite3_bind_text(
        statement: *mut c_void,
        at: c_int,
        text: *const c_char,
        length: c_int,
        free: *const c_void,
    ) -> c_int;
    fn sqlite3_step(statement: *mut c_void) -> c_int;
    fn sqlite3_reset(statement: *mut c_void) -> c_int;
    fn sqlite3_column_int64(statement: *mut c_void, at: c_int) -> i64;
    fn sqlite3_column_text(statement: *mut c_void, at: c_int) -> *const u8;
    fn sqlite3_column_bytes(statement: *mut c_void, at: c_int) -> c_int;
    fn sqlite3_finalize(statement: *mut c_void) -> c_int;
}

const OK: c_int = 0;
const CONSTRAINT: c_int = 19;
const ROW: c_int = 100;
const DONE: c_int = 101;
/// Read and write, make it new, and no locks between threads: one thread uses it.
const OPEN: c_int = 0x2 | 0x4 | 0x8000;

pub fn version() -> String {
    // SAFETY: the function has no arguments and returns a text that stays.
    unsafe { CStr::from_ptr(sqlite3_libversion()) }
        .to_string_lossy()
        .into_owned()
}

pub struct Database {
    at: *mut c_void,
}

impl Database {
    pub fn in_memory() -> Database {
        let mut at = null_mut();
        // SAFETY: the name ends with a zero, and `at` takes the database.
        let code = unsafe { sqlite3_open_v2(c":memory:".as_ptr(), &mut at, OPEN, null()) };
        assert_eq!(code, OK, "no database in memory");
        Database { at }
    }

    fn message(&self) -> String {
        // SAFETY: the database is open, and the text is copied at once.
        unsafe { CStr::from_ptr(sqlite3_errmsg(self.at)) }
            .to_string_lossy()
            .into_owned()
    }

    /// Runs statements that return nothing of use.
    pub fn execute(&self, text: &str) {
        let words = CString::new(text).unwrap();
        // SAFETY: the database is open, the text ends with a zero, and nothing is called back.
        let code = unsafe { sqlite3_exec(self.at, words.as_ptr(), null(), null_mut(), null_mut()) };
        assert_eq!(code, OK, "{}: {text}", self.message());
    }

    pub fn prepare(&self, text: &str) -> Statement<'_> {
        let words = CString::new(text).unwrap();
        let mut at = null_mut();
        // SAFETY: the database is open, the text ends with a zero, and `at` takes the statement.
        let code = unsafe { sqlite3_prepare_v2(self.at, words.as_ptr(), -1, &mut at, null_mut()) };
        assert_eq!(code, OK, "{}: {text}", self.message());
        Statement { at, of: self }
    }
}

impl Drop for Database {
    fn drop(&mut self) {
        // SAFETY: it is open, and its statements, which borrow it, are gone.
        let code = unsafe { sqlite3_close(self.at) };
        assert_eq!(code, OK, "the database is still in use");
    }
}

#[derive(Clone, Copy)]
pub enum Value<'a> {
    Number(i64),
    /// A symbol, without the zeros at its end.
    Symbol(&'a [u8; 8]),
}

/// A constraint of a table is not met.
#[derive(Debug)]
pub struct Refused;

pub struct Statement<'a> {
    at: *mut c_void,
    of: &'a Database,
}

impl Statement<'_> {
    /// Runs it with these values, as one that returns no row.
    pub fn run(&self, values: &[Value]) -> Result<(), Refused> {
        let mut rows = self.start(values);
        let code = rows.step();
        drop(rows);
        match code {
            DONE => Ok(()),
            CONSTRAINT => Err(Refused),
            _ => panic!("SQLite says {code}: {}", self.of.message()),
        }
    }

    /// Runs it with these values; its rows come by `next`, until what is returned here is dropped.
    pub fn start<'s, 'v: 's>(&'s self, values: &'v [Value<'v>]) -> Rows<'s> {
        for (place, value) in values.iter().enumerate() {
            let place = place as c_int + 1;
            // SAFETY: the statement is there and not running. A text stays, as `values` is borrowed by the rows.
            let code = unsafe {
                match value {
                    Value::Number(number) => sqlite3_bind_int64(self.at, place, *number),
                    Value::Symbol(symbol) => {
                        let letters = symbol.iter().take_while(|byte| **byte != 0).count();
                        let text = symbol.as_ptr().cast();
                        sqlite3_bind_text(self.at, place, text, letters as c_int, null())
                    }
                }
            };
            assert_eq!(code, OK, "{}", self.of.message());
        }
        Rows { of: self }
    }
}

impl Drop for Statement<'_> {
    fn drop(&mut self) {
        // SAFETY: it is there, and not used any more. What it returns is the code of its last run.
        unsafe { sqlite3_finalize(self.at) };
    }
}

pub struct Rows<'s> {
    of: &'s Statement<'s>,
}

impl Rows<'_> {
    fn step(&mut self) -> c_int {
        // SAFETY: the statement is there.
        unsafe { sqlite3_step(self.of.at) }
    }

    /// Goes to the next row, if there is one.
    pub fn next(&mut self) -> bool {
        match self.step() {
            ROW => true,
            DONE => false,
            code => panic!("SQLite says {code}: {}", self.of.of.message()),
        }
    }

    pub fn number(&self, column: usize) -> i64 {
        // SAFETY: the statement stands on a row; a column that is not there is NULL, which reads as 0.
        unsafe { sqlite3_column_int64(self.of.at, column as c_int) }
    }

    pub fn symbol(&self, column: usize) -> [u8; 8] {
        let mut symbol = [0; 8];
        // SAFETY: the statement stands on a row, and the text is copied before it goes on.
        unsafe {
            let text = sqlite3_column_text(self.of.at, column as c_int);
            let length = sqlite3_column_bytes(self.of.at, column as c_int) as usize;
            assert!(!text.is_null() && length < symbol.len(), "no symbol");
            std::ptr::copy_nonoverlapping(text, symbol.as_mut_ptr(), length);
        }
        symbol
    }
}

impl Drop for Rows<'_> {
    fn drop(&mut self) {
        // SAFETY: the statement is there. What it returns is the code of the last step, which was looked at.
        unsafe { sqlite3_reset(self.of.at) };
    }
}
