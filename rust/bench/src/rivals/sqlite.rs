//! SQLite: a table of intervals in memory, prepared statements, one transaction. The library is loaded when the program
//! runs, so that it builds on a machine without it; then this contender is left out.
use super::{Contender, Crosser, Row};
use crate::input::{Change, Kind, Span, TAGS};
use std::ffi::{CStr, c_char, c_int, c_void};
use std::ptr::{null, null_mut};

/// The covering index begins with the end, so that a look-back reads the intervals that ended after its second: few of
/// them for a recent second, many for an old one. The other order of the two has it the other way round.
const TABLE: &CStr =
    c"CREATE TABLE condition (id INTEGER PRIMARY KEY, tag INTEGER, reading INTEGER, began INTEGER, ended INTEGER);
CREATE INDEX by_end ON condition (ended, began, tag, reading);
BEGIN";
const INSERT: &CStr = c"INSERT INTO condition (id, tag, reading, began, ended) VALUES (?1, ?2, ?3, ?4, 4294967295)";
const END: &CStr = c"UPDATE condition SET ended = ?2 WHERE id = ?1";
/// An interval begins with a set or new reading: its beginning is the since of a row.
const LOOK: &CStr = c"SELECT tag, reading, began FROM condition WHERE ended > ?1 AND began <= ?1";
/// Of each tag's intervals that stood in a window the one that began last: SQLite takes the other columns of a row from
/// that which has the maximum.
const CROSS: &CStr = c"SELECT tag, reading, max(began) FROM condition
WHERE ended > ?1 AND began <= ?2 AND began < ended GROUP BY tag ORDER BY tag";
const PAGES: &CStr = c"SELECT page_count * page_size FROM pragma_page_count, pragma_page_size";

type Handle = *mut c_void;

unsafe extern "C" {
    fn dlopen(name: *const c_char, flags: c_int) -> Handle;
    fn dlsym(library: Handle, name: *const c_char) -> Handle;
}

/// The functions of the library that are used.
struct Library {
    open: unsafe extern "C" fn(*const c_char, *mut Handle) -> c_int,
    close: unsafe extern "C" fn(Handle) -> c_int,
    exec: unsafe extern "C" fn(Handle, *const c_char, *const c_void, *mut c_void, *mut *mut c_char) -> c_int,
    prepare: unsafe extern "C" fn(Handle, *const c_char, c_int, *mut Handle, *mut *const c_char) -> c_int,
    bind: unsafe extern "C" fn(Handle, c_int, i64) -> c_int,
    step: unsafe extern "C" fn(Handle) -> c_int,
    reset: unsafe extern "C" fn(Handle) -> c_int,
    column: unsafe extern "C" fn(Handle, c_int) -> i64,
    finalize: unsafe extern "C" fn(Handle) -> c_int,
}

const DONE: c_int = 101;
const ROW: c_int = 100;

impl Library {
    // the field's type is the annotation
    #[allow(clippy::missing_transmute_annotations)]
    fn load() -> Option<Library> {
        const NOW: c_int = 2;
        // SAFETY: dlopen and dlsym take C strings; each symbol has the type that SQLite's manual gives it.
        unsafe {
            let library = dlopen(c"libsqlite3.so.0".as_ptr(), NOW);
            if library.is_null() {
                return None;
            }
            let symbol = |name: &CStr| {
                let found = dlsym(library, name.as_ptr());
                (!found.is_null()).then_some(found)
            };
            Some(Library {
                open: std::mem::transmute(symbol(c"sqlite3_open")?),
                close: std::mem::transmute(symbol(c"sqlite3_close")?),
                exec: std::mem::transmute(symbol(c"sqlite3_exec")?),
                prepare: std::mem::transmute(symbol(c"sqlite3_prepare_v2")?),
                bind: std::mem::transmute(symbol(c"sqlite3_bind_int64")?),
                step: std::mem::transmute(symbol(c"sqlite3_step")?),
                reset: std::mem::transmute(symbol(c"sqlite3_reset")?),
                column: std::mem::transmute(symbol(c"sqlite3_column_int64")?),
                finalize: std::mem::transmute(symbol(c"sqlite3_finalize")?),
            })
        }
    }
}

pub struct Sqlite {
    library: Library,
    database: Handle,
    insert: Handle,
    end: Handle,
    look: Handle,
    cross: Handle,
    next_id: i64,
    /// The interval of each standing tag, kept by the program: an end needs no search.
    standing: Vec<i64>,
    rows: Vec<Row>,
}

impl Sqlite {
    /// Nothing if the machine has no library.
    pub fn new() -> Option<Sqlite> {
        let library = Library::load()?;
        let none = null_mut();
        let mut sqlite = Sqlite {
            library,
            database: none,
            insert: none,
            end: none,
            look: none,
            cross: none,
            next_id: 0,
            standing: Vec::new(),
            rows: Vec::new(),
        };
        sqlite.open();
        Some(sqlite)
    }

    fn open(&mut self) {
        // SAFETY: the handles are those that the library gives, and the strings end in 0.
        unsafe {
            let opened = (self.library.open)(c":memory:".as_ptr(), &mut self.database);
            assert_eq!(opened, 0, "sqlite3_open");
            let made = (self.library.exec)(self.database, TABLE.as_ptr(), null(), null_mut(), null_mut());
            assert_eq!(made, 0, "the table");
        }
        self.insert = self.prepare(INSERT);
        self.end = self.prepare(END);
        self.look = self.prepare(LOOK);
        self.cross = self.prepare(CROSS);
        self.next_id = 0;
        self.standing = vec![0; TAGS as usize];
    }

    fn close(&mut self) {
        // SAFETY: as above; no handle is used again.
        unsafe {
            for statement in [self.insert, self.end, self.look, self.cross] {
                (self.library.finalize)(statement);
            }
            (self.library.close)(self.database);
        }
    }

    fn prepare(&self, text: &CStr) -> Handle {
        let mut statement = null_mut();
        // SAFETY: as above.
        let made = unsafe { (self.library.prepare)(self.database, text.as_ptr(), -1, &mut statement, null_mut()) };
        assert_eq!(made, 0, "{text:?}");
        statement
    }

    /// Runs a statement that gives no rows.
    fn run(&self, statement: Handle, values: &[i64]) {
        // SAFETY: as above.
        unsafe {
            for (i, &value) in (1..).zip(values) {
                (self.library.bind)(statement, i, value);
            }
            let done = (self.library.step)(statement);
            assert_eq!(done, DONE);
            (self.library.reset)(statement);
        }
    }

    fn begin(&mut self, change: &Change) {
        self.next_id += 1;
        self.standing[change.tag as usize] = self.next_id;
        let values = [self.next_id, change.tag.into(), change.reading.into(), change.second.into()];
        self.run(self.insert, &values);
    }

    /// Takes the rows that a statement gives.
    fn take(&mut self, statement: Handle, values: &[i64]) {
        self.rows.clear();
        // SAFETY: as above.
        unsafe {
            for (i, &value) in (1..).zip(values) {
                (self.library.bind)(statement, i, value);
            }
            while (self.library.step)(statement) == ROW {
                let [tag, reading, since] = [0, 1, 2].map(|column| (self.library.column)(statement, column));
                self.rows.push(Row { tag: tag as u32, reading: reading as i32, since: since as u32 });
            }
            (self.library.reset)(statement);
        }
    }
}

impl Crosser for Sqlite {
    fn cross_all(&mut self, windows: &[Span]) -> u64 {
        let mut rows = 0;
        for window in windows {
            self.take(self.cross, &[window.first.into(), window.last.into()]);
            rows += self.rows.len() as u64;
        }
        rows
    }
}

impl Drop for Sqlite {
    fn drop(&mut self) {
        self.close();
    }
}

impl Contender for Sqlite {
    fn name(&self) -> &'static str {
        "SQLite"
    }

    fn restart(&mut self) {
        self.close();
        self.open();
    }

    fn change_all(&mut self, changes: &[Change]) {
        for change in changes {
            if change.kind != Kind::Set {
                self.run(self.end, &[self.standing[change.tag as usize], change.second.into()]);
            }
            if change.kind != Kind::Clear {
                self.begin(change);
            }
        }
    }

    fn look_all(&mut self, seconds: &[u32]) -> u64 {
        let mut rows = 0;
        for &second in seconds {
            self.take(self.look, &[second.into()]);
            rows += self.rows.len() as u64;
        }
        rows
    }

    fn rows(&self) -> &[Row] {
        &self.rows
    }

    fn bytes(&mut self) -> usize {
        let statement = self.prepare(PAGES);
        // SAFETY: as above.
        unsafe {
            (self.library.step)(statement);
            let bytes = (self.library.column)(statement, 0) as usize;
            (self.library.finalize)(statement);
            bytes
        }
    }

    fn words_read(&self) -> Option<usize> {
        None
    }
}
