//! The functions of SQLite that the store needs, loaded from the installed library: no header and no crate is needed.

use std::ffi::{c_void, CStr, CString};
use std::mem::transmute;
use std::os::raw::{c_char, c_int};
use std::ptr::{null, null_mut};

extern "C" {
    fn dlopen(name: *const c_char, flags: c_int) -> *mut c_void;
    fn dlsym(library: *mut c_void, name: *const c_char) -> *mut c_void;
}

const NOW: c_int = 2;
const OK: c_int = 0;
const ROW: c_int = 100;
const DONE: c_int = 101;

type Handle = *mut c_void;

// The functions, by the types that SQLite's documentation gives them.
type Version = unsafe extern "C" fn() -> *const c_char;
type Open = unsafe extern "C" fn(*const c_char, *mut Handle) -> c_int;
type Prepare = unsafe extern "C" fn(Handle, *const c_char, c_int, *mut Handle, *mut *const c_char) -> c_int;
type Bind = unsafe extern "C" fn(Handle, c_int, i64) -> c_int;
type Column = unsafe extern "C" fn(Handle, c_int) -> i64;
type OnHandle = unsafe extern "C" fn(Handle) -> c_int;

#[derive(Clone, Copy)]
struct Library {
    version: Version,
    open: Open,
    close: OnHandle,
    prepare: Prepare,
    finalize: OnHandle,
    step: OnHandle,
    reset: OnHandle,
    bind: Bind,
    column: Column,
}

impl Library {
    fn load() -> Option<Library> {
        let name = |text: &str| CString::new(text).expect("no zero in a name");
        // SAFETY: both are declared as in the C library; if a function is missing the load ends.
        unsafe {
            let library = dlopen(name("libsqlite3.so.0").as_ptr(), NOW);
            if library.is_null() {
                return None;
            }
            let find = |text: &str| Some(dlsym(library, name(text).as_ptr())).filter(|found| !found.is_null());
            Some(Library {
                version: transmute::<Handle, Version>(find("sqlite3_libversion")?),
                open: transmute::<Handle, Open>(find("sqlite3_open")?),
                close: transmute::<Handle, OnHandle>(find("sqlite3_close")?),
                prepare: transmute::<Handle, Prepare>(find("sqlite3_prepare_v2")?),
                finalize: transmute::<Handle, OnHandle>(find("sqlite3_finalize")?),
                step: transmute::<Handle, OnHandle>(find("sqlite3_step")?),
                reset: transmute::<Handle, OnHandle>(find("sqlite3_reset")?),
                bind: transmute::<Handle, Bind>(find("sqlite3_bind_int64")?),
                column: transmute::<Handle, Column>(find("sqlite3_column_int64")?),
            })
        }
    }
}

/// A database in memory.
pub struct Database {
    library: Library,
    handle: Handle,
}

/// A prepared statement. It must not outlive its database.
pub struct Statement {
    library: Library,
    handle: Handle,
}

impl Database {
    /// None where SQLite is not installed.
    pub fn in_memory() -> Option<Database> {
        let library = Library::load()?;
        let mut handle = null_mut();
        // SAFETY: the name ends with a zero, and the handle has a place.
        let code = unsafe { (library.open)(b":memory:\0".as_ptr().cast(), &mut handle) };
        assert_eq!(code, OK, "a database in memory opens");
        Some(Database { library, handle })
    }

    pub fn version(&self) -> String {
        // SAFETY: SQLite gives a text that ends with a zero and stays.
        unsafe { CStr::from_ptr((self.library.version)()) }.to_string_lossy().into_owned()
    }

    pub fn prepare(&self, text: &str) -> Statement {
        let sql = CString::new(text).expect("no zero in SQL");
        let mut handle = null_mut();
        // SAFETY: the text ends with a zero, the database is open, and the handle has a place.
        let code = unsafe { (self.library.prepare)(self.handle, sql.as_ptr(), -1, &mut handle, &mut null()) };
        assert_eq!(code, OK, "SQLite prepares {text}");
        Statement { library: self.library, handle }
    }
}

impl Drop for Database {
    fn drop(&mut self) {
        // SAFETY: it is open, and is closed once.
        unsafe { (self.library.close)(self.handle) };
    }
}

impl Statement {
    /// Runs it with these numbers, and passes on the first N columns of each row.
    pub fn rows<const N: usize>(&mut self, numbers: &[i64], mut row: impl FnMut([i64; N])) {
        // SAFETY: the statement is prepared on an open database; columns are read while a row is there.
        unsafe {
            for (k, number) in numbers.iter().enumerate() {
                (self.library.bind)(self.handle, k as c_int + 1, *number);
            }
            let mut code = (self.library.step)(self.handle);
            while code == ROW {
                let mut columns = [0; N];
                for (k, column) in columns.iter_mut().enumerate() {
                    *column = (self.library.column)(self.handle, k as c_int);
                }
                row(columns);
                code = (self.library.step)(self.handle);
            }
            assert_eq!(code, DONE, "SQLite runs the statement");
            (self.library.reset)(self.handle);
        }
    }

    /// Runs it with these numbers; it returns no rows.
    pub fn run(&mut self, numbers: &[i64]) {
        self.rows(numbers, |[]: [i64; 0]| ());
    }
}

impl Drop for Statement {
    fn drop(&mut self) {
        // SAFETY: it was prepared, and is finalized once.
        unsafe { (self.library.finalize)(self.handle) };
    }
}
