//! The part of the C library of SQLite that the program uses.

use std::error::Error;
use std::ffi::{CStr, CString, c_char, c_int};
use std::ptr::{null, null_mut};
use std::slice;

pub type Result<T> = std::result::Result<T, Box<dyn Error>>;

const OK: c_int = 0;
const ROW: c_int = 100;
const DONE: c_int = 101;
const OPEN_READWRITE: c_int = 0x2;
/// No lock at each call, as one thread alone uses the connection.
const OPEN_NOMUTEX: c_int = 0x8000;
/// A statement's length where it ends with a NUL.
const UP_TO_NUL: c_int = -1;

enum Database {}

enum Statement {}

#[link(name = "sqlite3")]
unsafe extern "C" {
    fn sqlite3_open_v2(
        path: *const c_char,
        database: *mut *mut Database,
        flags: c_int,
        system: *const c_char,
    ) -> c_int;
    fn sqlite3_close(database: *mut Database) -> c_int;
    fn sqlite3_errmsg(database: *mut Database) -> *const c_char;
    fn sqlite3_prepare_v2(
        database: *mut Database,
        sql: *const c_char,
        length: c_int,
        statement: *mut *mut Statement,
        rest: *mut *const c_char,
    ) -> c_int;
    fn sqlite3_step(statement: *mut Statement) -> c_int;
    fn sqlite3_finalize(statement: *mut Statement) -> c_int;
    fn sqlite3_column_int64(statement: *mut Statement, column: c_int) -> i64;
    fn sqlite3_column_blob(statement: *mut Statement, column: c_int) -> *const u8;
    fn sqlite3_column_bytes(statement: *mut Statement, column: c_int) -> c_int;
}

pub struct Connection(*mut Database);

impl Connection {
    /// Opens a file that is there.
    pub fn open(path: &str) -> Result<Connection> {
        let path = CString::new(path)?;
        let mut database = null_mut();
        // SAFETY: the path ends with a NUL, and the call sets `database`.
        let code = unsafe {
            sqlite3_open_v2(
                path.as_ptr(),
                &mut database,
                OPEN_READWRITE | OPEN_NOMUTEX,
                null(),
            )
        };
        let connection = Connection(database);
        connection.check(code, OK)?;
        Ok(connection)
    }

    /// Runs a statement that gives no rows.
    pub fn run(&self, sql: &str) -> Result<()> {
        self.each_row(sql, |_| Ok(()))
    }

    /// Runs a statement, and calls `take` with each of its rows.
    pub fn each_row(&self, sql: &str, mut take: impl FnMut(&Row) -> Result<()>) -> Result<()> {
        let row = self.prepare(sql)?;
        loop {
            // SAFETY: the statement lives as long as `row`.
            match unsafe { sqlite3_step(row.0) } {
                ROW => take(&row)?,
                code => return self.check(code, DONE),
            }
        }
    }

    fn prepare(&self, sql: &str) -> Result<Row> {
        let sql = CString::new(sql)?;
        let mut row = Row(null_mut());
        // SAFETY: the text ends with a NUL, and the call sets the statement.
        let code =
            unsafe { sqlite3_prepare_v2(self.0, sql.as_ptr(), UP_TO_NUL, &mut row.0, null_mut()) };
        self.check(code, OK)?;
        Ok(row)
    }

    fn check(&self, code: c_int, wanted: c_int) -> Result<()> {
        if code == wanted {
            return Ok(());
        }
        // SAFETY: the message ends with a NUL, and is copied before the next call.
        let message = unsafe { CStr::from_ptr(sqlite3_errmsg(self.0)) };
        Err(message.to_string_lossy().into())
    }
}

impl Drop for Connection {
    fn drop(&mut self) {
        // SAFETY: each statement is gone before its connection.
        unsafe { sqlite3_close(self.0) };
    }
}

/// The row at which a statement is. Columns count from 0.
pub struct Row(*mut Statement);

impl Row {
    pub fn number<T: TryFrom<i64>>(&self, column: c_int) -> Result<T> {
        // SAFETY: the statement is at a row.
        let value = unsafe { sqlite3_column_int64(self.0, column) };
        T::try_from(value).map_err(|_| format!("{value} is out of range").into())
    }

    pub fn text(&self, column: c_int) -> Result<String> {
        Ok(String::from_utf8(self.bytes(column))?)
    }

    pub fn bytes(&self, column: c_int) -> Vec<u8> {
        // SAFETY: the statement is at a row, and the bytes stay there until its next step.
        unsafe {
            let start = sqlite3_column_blob(self.0, column);
            let length = sqlite3_column_bytes(self.0, column) as usize;
            if length == 0 {
                return Vec::new();
            }
            slice::from_raw_parts(start, length).to_vec()
        }
    }
}

impl Drop for Row {
    fn drop(&mut self) {
        // SAFETY: nothing uses the statement afterwards.
        unsafe { sqlite3_finalize(self.0) };
    }
}
