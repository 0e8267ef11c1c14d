//! The executor's library for C, as safe Rust. `include/calvin.h` declares what is called here.
//!
//! ```no_run
//! use calvin::Setup;
//!
//! let setup = std::fs::read("bank.json")?;
//! let mut session = Setup::new(&setup).open()?;
//! session.keep_replies();
//! let number = session.call(br#"["call","pay",[1,2,30]]"#)?;
//! session.cut()?;
//! while let Some(reply) = session.next_reply() {
//!     println!("{} {}", reply.number == number, reply);
//! }
//! for row in session.rows("acct") {
//!     let (key, values) = row?;
//!     println!("{key} {values:?}");
//! }
//! let rows = session.rows_document()?;
//! let other = Setup::new(&setup).with_rows(&rows).open()?;
//! # Ok::<(), Box<dyn std::error::Error>>(())
//! ```
//!
//! In `Cargo.toml`: `calvin = { path = "../calvin/bindings/rust" }`. The environment's `CALVIN_LIB` names the folder of `libcalvin.a`
//! when the crate, or one that depends on it, is built; without it RUSTFLAGS must name the archive.

use std::error::Error;
use std::fmt;
use std::marker::PhantomData;
use std::ptr;

#[repr(C)]
struct Opaque {
    private: [u8; 0],
}

/// A session's pointer, as the archive takes it.
#[repr(C)]
#[derive(Clone, Copy)]
struct Handle {
    at: *mut Opaque,
}

/// The most bytes of a text, values of a reply, and columns of a table.
const TEXT_BYTES: usize = 64;
const REPLY_VALUES: usize = 64;
const COLUMNS: usize = 16;

/// A value, as the archive writes it: a number, or the first `length` bytes of `text`.
#[repr(C)]
#[derive(Clone, Copy)]
struct RawValue {
    number: i64,
    kind: u32,
    length: u32,
    text: [u8; TEXT_BYTES],
}

impl RawValue {
    const NONE: RawValue = RawValue { number: 0, kind: 0, length: 0, text: [0; TEXT_BYTES] };

    fn value(&self) -> Value {
        match self.kind {
            0 => Value::Int(self.number),
            _ => Value::Text(String::from_utf8_lossy(&self.text[..self.length as usize]).into_owned()),
        }
    }
}

/// A reply but for its values, as the archive writes it.
#[repr(C)]
#[derive(Default)]
struct RawReply {
    number: u64,
    first: u64,
    kind: u32,
    code: u32,
    length: usize,
}

/// What the archive answers where there is no such reply or row, and where the setup has no such table.
const NONE: i32 = 4;
const NO_TABLE: i32 = 5;

extern "C" {
    fn calvin_c_open(
        setup: *const u8,
        setup_length: usize,
        coarsen: usize,
        arena: usize,
        session: *mut *mut Opaque,
        message: *mut u8,
        message_room: usize,
        message_length: *mut usize,
    ) -> i32;
    fn calvin_c_open_rows(
        setup: *const u8,
        setup_length: usize,
        rows: *const u8,
        rows_length: usize,
        coarsen: usize,
        arena: usize,
        session: *mut *mut Opaque,
        message: *mut u8,
        message_room: usize,
        message_length: *mut usize,
    ) -> i32;
    fn calvin_c_feed(session: *mut Handle, bytes: *const u8, length: usize) -> i32;
    fn calvin_c_call(session: *mut Handle, line: *const u8, length: usize, number: *mut u64) -> i32;
    fn calvin_c_test(session: *mut Handle, line: *const u8, length: usize) -> i32;
    fn calvin_c_cut(session: *mut Handle) -> i32;
    fn calvin_c_end(session: *mut Handle) -> i32;
    fn calvin_c_drain(session: *mut Handle, into: *mut u8, room: usize) -> usize;
    fn calvin_c_fault(session: *mut Handle, line: *mut u64) -> i32;
    fn calvin_c_keep_replies(session: *mut Handle);
    fn calvin_c_next_reply(session: *mut Handle, reply: *mut RawReply, values: *mut RawValue, room: usize) -> i32;
    fn calvin_c_row(
        session: *mut Handle,
        table: *const u8,
        table_length: usize,
        key: u64,
        length: *mut usize,
        values: *mut RawValue,
        room: usize,
    ) -> i32;
    fn calvin_c_next_row(
        session: *mut Handle,
        table: *const u8,
        table_length: usize,
        least: u64,
        key: *mut u64,
        length: *mut usize,
        values: *mut RawValue,
        room: usize,
    ) -> i32;
    fn calvin_c_rows_document(session: *mut Handle, length: *mut usize) -> i32;
    fn calvin_c_drain_rows(session: *mut Handle, into: *mut u8, room: usize) -> usize;
    fn calvin_c_carried(session: *mut Handle, count: *mut usize) -> i32;
    fn calvin_c_digest(session: *mut Handle, digits: *mut u8, room: usize) -> i32;
    fn calvin_c_close(session: Handle);
}

/// How calls ask for their locks. None of it changes a report.
#[derive(Clone, Copy, Debug, PartialEq, Eq)]
pub struct Settings {
    /// How many rows of a partition a call locks one by one: 0 to 65535.
    pub coarsen: usize,
    /// How many lock requests there is room for: 1 to 1048576.
    pub arena: usize,
}

impl Default for Settings {
    /// Those of `calvin run` where none are given.
    fn default() -> Settings {
        Settings {
            coarsen: 64,
            arena: 65_536,
        }
    }
}

/// What a session is opened on: the JSON text of a setup, with the rows of a rows document in place of its own where there is one.
#[derive(Clone, Copy, Debug)]
pub struct Setup<'a> {
    text: &'a [u8],
    rows: Option<&'a [u8]>,
    settings: Settings,
}

impl<'a> Setup<'a> {
    /// The setup that a JSON text says, with its own rows and the settings of `calvin run`.
    pub fn new(text: &'a [u8]) -> Setup<'a> {
        Setup { text, rows: None, settings: Settings::default() }
    }

    /// The same with the rows that a rows document says, as `Session::rows_document` gives it.
    pub fn with_rows(self, rows: &'a [u8]) -> Setup<'a> {
        Setup { rows: Some(rows), ..self }
    }

    /// The same with other settings.
    pub fn with_settings(self, settings: Settings) -> Setup<'a> {
        Setup { settings, ..self }
    }

    /// A session on it, of whose log nothing was fed.
    pub fn open(&self) -> Result<Session, Fault> {
        match self.rows {
            None => Session::open(self.text, self.settings),
            Some(rows) => Session::open_rows(self.text, rows, self.settings),
        }
    }
}

/// Why a line is no call that the setup takes, by its number in docs/faults.md.
#[derive(Clone, Copy, Debug, PartialEq, Eq)]
pub enum LineFault {
    /// 31: the line is no JSON text.
    NotJson,
    /// 32: the line is no call: a cut, more than one line, or another form.
    NotCall,
    /// 33: no procedure has that name.
    NoProcedure,
    /// 34: the values are not one for each parameter, of its type.
    Arguments,
    /// 35: the batch has 4,096 calls, or the log as many as it may have.
    BatchFull,
}

impl LineFault {
    fn of(status: i32) -> Option<LineFault> {
        Some(match status {
            31 => LineFault::NotJson,
            32 => LineFault::NotCall,
            33 => LineFault::NoProcedure,
            34 => LineFault::Arguments,
            35 => LineFault::BatchFull,
            _ => return None,
        })
    }
}

impl fmt::Display for LineFault {
    fn fmt(&self, f: &mut fmt::Formatter<'_>) -> fmt::Result {
        f.write_str(match self {
            LineFault::NotJson => "the line is no JSON text",
            LineFault::NotCall => "the line is no call",
            LineFault::NoProcedure => "no procedure has that name",
            LineFault::Arguments => "the values are not one for each parameter, of the parameter's type",
            LineFault::BatchFull => "the batch or the log has more calls than it may have",
        })
    }
}

impl Error for LineFault {}

/// A value of a row or of a reply.
#[derive(Clone, Debug, PartialEq, Eq)]
pub enum Value {
    Int(i64),
    /// A text of at most 64 bytes.
    Text(String),
}

impl fmt::Display for Value {
    /// As in the report: a number in decimal, a text as `x` and its bytes in hexadecimal.
    fn fmt(&self, f: &mut fmt::Formatter<'_>) -> fmt::Result {
        match self {
            Value::Int(number) => number.fmt(f),
            Value::Text(text) => {
                f.write_str("x")?;
                text.bytes().try_for_each(|byte| write!(f, "{byte:02x}"))
            }
        }
    }
}

/// How an attempt of a call ended.
#[derive(Clone, Debug, PartialEq, Eq)]
pub enum Outcome {
    /// It replied these values, at most 64.
    Commit(Vec<Value>),
    /// It aborted with this code.
    Abort(u16),
    /// It went stale.
    Stale,
}

/// What came of an attempt of a call.
#[derive(Clone, Debug, PartialEq, Eq)]
pub struct Reply {
    /// The number of its transaction.
    pub number: u64,
    /// That of the call's first attempt, which is the same where this is the first.
    pub first: u64,
    pub outcome: Outcome,
}

impl fmt::Display for Reply {
    /// As its line in the report.
    fn fmt(&self, f: &mut fmt::Formatter<'_>) -> fmt::Result {
        self.number.fmt(f)?;
        if self.first != self.number {
            write!(f, " of {}", self.first)?;
        }
        match &self.outcome {
            Outcome::Commit(values) => {
                f.write_str(" commit")?;
                values.iter().try_for_each(|value| write!(f, " {value}"))
            }
            Outcome::Abort(code) => write!(f, " abort {code}"),
            Outcome::Stale => f.write_str(" stale"),
        }
    }
}

/// Why something was not done.
#[derive(Clone, Debug, PartialEq, Eq)]
pub enum Fault {
    /// The setup breaks a rule, as this line says.
    Setup(String),
    /// A line is no call that the setup takes. Nothing has changed.
    Line(LineFault),
    /// The log has this fault (31 to 35) at this line, or an allocation failed there (37). Nothing more is taken of it.
    Log { number: i32, line: u64 },
    /// A setting is outside its range, the log has ended, or a line is begun.
    Misused,
    /// The setup has no table of that name.
    NoTable,
    /// An allocation failed.
    NoMemory,
}

impl fmt::Display for Fault {
    fn fmt(&self, f: &mut fmt::Formatter<'_>) -> fmt::Result {
        match self {
            Fault::Setup(line) => f.write_str(line),
            Fault::Line(fault) => fault.fmt(f),
            Fault::Log { number, line } => write!(f, "fault {number} line {line}"),
            Fault::Misused => f.write_str("a setting is outside its range, the log has ended, or a line is begun"),
            Fault::NoTable => f.write_str("the setup has no such table"),
            Fault::NoMemory => f.write_str("an allocation failed"),
        }
    }
}

impl Error for Fault {
    fn source(&self) -> Option<&(dyn Error + 'static)> {
        match self {
            Fault::Line(fault) => Some(fault),
            _ => None,
        }
    }
}

/// A run of one log on one setup, on the thread that opened it. It is closed when it is dropped.
pub struct Session {
    handle: Handle,
    on_one_thread: PhantomData<*mut ()>,
}

impl Session {
    /// A session on the setup that a JSON text says.
    pub fn open(setup: &[u8], settings: Settings) -> Result<Session, Fault> {
        Session::opened(|at, message, written| {
            // Safety: each pointer is to as many bytes as are said, and `at` to one pointer.
            unsafe {
                calvin_c_open(
                    setup.as_ptr(),
                    setup.len(),
                    settings.coarsen,
                    settings.arena,
                    at,
                    message.as_mut_ptr(),
                    message.len(),
                    written,
                )
            }
        })
    }

    fn open_rows(setup: &[u8], rows: &[u8], settings: Settings) -> Result<Session, Fault> {
        Session::opened(|at, message, written| {
            // Safety: each pointer is to as many bytes as are said, and `at` to one pointer.
            unsafe {
                calvin_c_open_rows(
                    setup.as_ptr(),
                    setup.len(),
                    rows.as_ptr(),
                    rows.len(),
                    settings.coarsen,
                    settings.arena,
                    at,
                    message.as_mut_ptr(),
                    message.len(),
                    written,
                )
            }
        })
    }

    /// What comes of opening: the pointer that is written, or the fault.
    fn opened(open: impl FnOnce(&mut *mut Opaque, &mut [u8], &mut usize) -> i32) -> Result<Session, Fault> {
        let (mut at, mut message, mut written) = (ptr::null_mut(), [0; 256], 0);
        match open(&mut at, &mut message, &mut written) {
            0 => Ok(Session {
                handle: Handle { at },
                on_one_thread: PhantomData,
            }),
            1 => Err(Fault::Setup(String::from_utf8_lossy(&message[..written]).into_owned())),
            2 => Err(Fault::Misused),
            _ => Err(Fault::NoMemory),
        }
    }

    /// Takes the next bytes of the log, in pieces of any size, and executes each batch whose cut is among them.
    pub fn feed(&mut self, bytes: &[u8]) -> Result<(), Fault> {
        // Safety: the handle is live until it is dropped, and the pointer is to as many bytes as are said.
        let status = unsafe { calvin_c_feed(&mut self.live(), bytes.as_ptr(), bytes.len()) };
        self.answer(status)
    }

    /// Takes a line, without its newline, as the next call, and gives the number of its transaction: that of its first
    /// attempt. `Fault::Line` where it is no call that the setup takes; each fault leaves all as it was.
    pub fn call(&mut self, line: &[u8]) -> Result<u64, Fault> {
        let mut number = 0;
        // Safety: the handle is live until it is dropped, and the pointers are to as many bytes as are said and to a number.
        let status = unsafe { calvin_c_call(&mut self.live(), line.as_ptr(), line.len(), &mut number) };
        self.answer(status)?;
        Ok(number)
    }

    /// Tells what `call` would answer for the line, but for the number, and takes nothing.
    pub fn test(&self, line: &[u8]) -> Result<(), Fault> {
        // Safety: the handle is live until it is dropped, and the pointer is to as many bytes as are said.
        let status = unsafe { calvin_c_test(&mut self.live(), line.as_ptr(), line.len()) };
        self.answer(status)
    }

    /// Ends the batch: its calls are executed, and their report waits.
    pub fn cut(&mut self) -> Result<(), Fault> {
        // Safety: the handle is live until it is dropped.
        let status = unsafe { calvin_c_cut(&mut self.live()) };
        self.answer(status)
    }

    /// Ends the log: calls after its last cut are executed, and the end line waits.
    pub fn end(&mut self) -> Result<(), Fault> {
        // Safety: the handle is live until it is dropped.
        let status = unsafe { calvin_c_end(&mut self.live()) };
        self.answer(status)
    }

    /// Moves report bytes that wait to the front of `into`, and says how many; 0 where none waits.
    pub fn drain(&mut self, into: &mut [u8]) -> usize {
        // Safety: the handle is live until it is dropped, and the pointer is to as many bytes as are said.
        unsafe { calvin_c_drain(&mut self.live(), into.as_mut_ptr(), into.len()) }
    }

    /// All report bytes that wait. They wait no longer.
    pub fn report(&mut self) -> Vec<u8> {
        let (mut report, mut piece) = (Vec::new(), [0; 4096]);
        loop {
            match self.drain(&mut piece) {
                0 => return report,
                taken => report.extend_from_slice(&piece[..taken]),
            }
        }
    }

    /// From the next batch on, replies wait to be taken one by one. Before this is called none is kept.
    pub fn keep_replies(&mut self) {
        // Safety: the handle is live until it is dropped.
        unsafe { calvin_c_keep_replies(&mut self.live()) }
    }

    /// The next reply in the order of the log, each once; `None` where none waits.
    pub fn next_reply(&mut self) -> Option<Reply> {
        let (mut reply, mut values) = (RawReply::default(), [RawValue::NONE; REPLY_VALUES]);
        // Safety: the handle is live until it is dropped, and the pointers are to a reply and to as many values as are said.
        let status = unsafe { calvin_c_next_reply(&mut self.live(), &mut reply, values.as_mut_ptr(), values.len()) };
        let outcome = match reply.kind {
            0 => Outcome::Commit(taken(&values, reply.length)),
            1 => Outcome::Abort(reply.code as u16),
            _ => Outcome::Stale,
        };
        (status == 0).then_some(Reply { number: reply.number, first: reply.first, outcome })
    }

    /// Takes all replies that wait, one by one.
    pub fn replies(&mut self) -> impl Iterator<Item = Reply> + '_ {
        std::iter::from_fn(|| self.next_reply())
    }

    /// The values of the row that a table has under a key, after the batches that have ended; `None` where there is none.
    pub fn row(&self, table: &str, key: u64) -> Result<Option<Vec<Value>>, Fault> {
        let (mut length, mut values) = (0, [RawValue::NONE; COLUMNS]);
        // Safety: the handle is live until it is dropped, and the pointers are to as many bytes and values as are said.
        let status = unsafe {
            calvin_c_row(&mut self.live(), table.as_ptr(), table.len(), key, &mut length, values.as_mut_ptr(), values.len())
        };
        self.found(status, || taken(&values, length))
    }

    /// The key and the values of the table's row with the least key above `after`; of the row with the least key at all,
    /// where `after` is `None`. `None` where there is none.
    pub fn next_row(&self, table: &str, after: Option<u64>) -> Result<Option<(u64, Vec<Value>)>, Fault> {
        let Some(least) = after.map_or(Some(0), |key| key.checked_add(1)) else {
            return self.row(table, u64::MAX).map(|_| None);
        };
        let (mut key, mut length, mut values) = (0, 0, [RawValue::NONE; COLUMNS]);
        // Safety: the handle is live until it is dropped, and the pointers are to as many bytes and values as are said.
        let status = unsafe {
            calvin_c_next_row(
                &mut self.live(),
                table.as_ptr(),
                table.len(),
                least,
                &mut key,
                &mut length,
                values.as_mut_ptr(),
                values.len(),
            )
        };
        self.found(status, || (key, taken(&values, length)))
    }

    /// The rows of a table by ascending keys.
    pub fn rows<'a>(&'a self, table: &'a str) -> Rows<'a> {
        Rows { session: self, table, after: None, ended: false }
    }

    /// All rows as a rows document, as `Setup::with_rows` takes it.
    pub fn rows_document(&mut self) -> Result<Vec<u8>, Fault> {
        let mut length = 0;
        // Safety: the handle is live until it is dropped, and the pointer is to a number.
        let status = unsafe { calvin_c_rows_document(&mut self.live(), &mut length) };
        self.answer(status)?;
        let mut document = vec![0; length];
        // Safety: the handle is live until it is dropped, and the pointer is to as many bytes as are said.
        let taken = unsafe { calvin_c_drain_rows(&mut self.live(), document.as_mut_ptr(), document.len()) };
        document.truncate(taken);
        Ok(document)
    }

    /// How many calls the batches that have ended carry to the next one, where they are tried again: under retries 1
    /// and 2 those that went stale, without retries none. Where it is 0 a session that is opened over the rows of this
    /// one goes on as this one.
    pub fn carried(&mut self) -> Result<usize, Fault> {
        let mut count = 0;
        // Safety: the handle is live until it is dropped, and the pointer is to a number.
        let status = unsafe { calvin_c_carried(&mut self.live(), &mut count) };
        self.answer(status).map(|()| count)
    }

    /// The digest of all rows, as the report would have it after the batches that have ended: 64 digits.
    pub fn digest(&mut self) -> Result<String, Fault> {
        let mut digits = [0; 64];
        // Safety: the handle is live until it is dropped, and the pointer is to as many bytes as are said.
        let status = unsafe { calvin_c_digest(&mut self.live(), digits.as_mut_ptr(), digits.len()) };
        self.answer(status)?;
        Ok(String::from_utf8_lossy(&digits).into_owned())
    }

    /// The session as the archive takes it.
    fn live(&self) -> Handle {
        self.handle
    }

    /// What was found, where the status says that something was.
    fn found<T>(&self, status: i32, value: impl FnOnce() -> T) -> Result<Option<T>, Fault> {
        match status {
            NONE => Ok(None),
            _ => self.answer(status).map(|()| Some(value())),
        }
    }

    fn answer(&self, status: i32) -> Result<(), Fault> {
        match status {
            0 => Ok(()),
            2 => Err(Fault::Misused),
            NO_TABLE => Err(Fault::NoTable),
            _ => Err(LineFault::of(status).map_or_else(|| self.stopped(), Fault::Line)),
        }
    }

    /// The fault that has stopped the session, or else want of memory.
    fn stopped(&self) -> Fault {
        let mut line = 0;
        // Safety: the handle is live until it is dropped, and the pointer is to a number.
        match unsafe { calvin_c_fault(&mut self.live(), &mut line) } {
            0 => Fault::NoMemory,
            number => Fault::Log { number, line },
        }
    }
}

/// The values that were written.
fn taken(values: &[RawValue], length: usize) -> Vec<Value> {
    values.iter().take(length).map(RawValue::value).collect()
}

/// The rows of a table by ascending keys, each as its key and its values. After a fault there is none.
pub struct Rows<'a> {
    session: &'a Session,
    table: &'a str,
    after: Option<u64>,
    ended: bool,
}

impl Iterator for Rows<'_> {
    type Item = Result<(u64, Vec<Value>), Fault>;

    fn next(&mut self) -> Option<Self::Item> {
        if self.ended {
            return None;
        }
        let found = self.session.next_row(self.table, self.after);
        match &found {
            Ok(Some((key, _))) => self.after = Some(*key),
            _ => self.ended = true,
        }
        found.transpose()
    }
}

impl Drop for Session {
    fn drop(&mut self) {
        // Safety: the handle is live, and nobody has it afterwards.
        unsafe { calvin_c_close(self.handle) }
    }
}
