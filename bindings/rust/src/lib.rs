//! The WebAssembly text format: checks, lists, prints and formats texts, by the proved library of Dilgorza.
//!
//! ```
//! let faults = dilgorza::check("(module (func i32.ad))")?;
//! assert_eq!(faults[0].message, "no instruction is called `i32.ad`");
//! # Ok::<(), dilgorza::OutOfMemory>(())
//! ```
//!
//! A text is a `str` or bytes, which should be UTF-8. Several threads can call at the same time. If memory runs out, a
//! call returns an error.
//!
//! The functions that end in `_named` take the name of the text for reports, such as a path; the others call it
//! `<text>`. In a name that isn't UTF-8, each invalid sequence of bytes becomes U+FFFD.
#![deny(missing_docs)]

mod kind;

pub use kind::FaultKind;

use std::error;
use std::fmt;

/// The struct `wat_fault` of wat.h.
#[repr(C)]
#[derive(Clone, Copy, Default)]
struct Record {
    offset: usize,
    length: usize,
    line: usize,
    column: usize,
    fault: usize,
    message: usize,
    hint: usize,
    expected: usize,
    end: usize,
}

/// A call for a text with a name.
type OfText = unsafe extern "C" fn(*const u8, usize, *const u8, usize, *mut u8, usize, *mut usize) -> i32;

/// A call that writes faults as records, and their messages.
type Faults =
    unsafe extern "C" fn(*const u8, usize, *mut Record, usize, *mut usize, *mut u8, usize, *mut usize) -> i32;

unsafe extern "C" {
    fn wat_faults_syntax(
        text: *const u8,
        length: usize,
        faults: *mut Record,
        space: usize,
        count: *mut usize,
        messages: *mut u8,
        room: usize,
        needed: *mut usize,
    ) -> i32;
    fn wat_faults(
        text: *const u8,
        length: usize,
        faults: *mut Record,
        space: usize,
        count: *mut usize,
        messages: *mut u8,
        room: usize,
        needed: *mut usize,
    ) -> i32;
    fn wat_check_named(
        name: *const u8,
        name_length: usize,
        text: *const u8,
        length: usize,
        said: *mut u8,
        room: usize,
        needed: *mut usize,
    ) -> i32;
    fn wat_list_named(
        name: *const u8,
        name_length: usize,
        text: *const u8,
        length: usize,
        said: *mut u8,
        room: usize,
        needed: *mut usize,
    ) -> i32;
    fn wat_format_named(
        name: *const u8,
        name_length: usize,
        text: *const u8,
        length: usize,
        said: *mut u8,
        room: usize,
        needed: *mut usize,
    ) -> i32;
    fn wat_print_named(
        name: *const u8,
        name_length: usize,
        text: *const u8,
        length: usize,
        line: bool,
        said: *mut u8,
        room: usize,
        needed: *mut usize,
    ) -> i32;
    fn wat_version(said: *mut u8, room: usize, needed: *mut usize) -> i32;
}

const NO_NAME: &str = "<text>";

/// An error of a text, with its position.
///
/// If more than 20 fields are invalid, a fault whose kind is `More` has the number of the others in its message. Its
/// four numbers are 0.
#[derive(Clone, Debug, PartialEq, Eq)]
pub struct Fault {
    /// The offset of the fault in the text, in bytes from 0.
    pub offset: usize,
    /// The number of bytes to underline, from the offset on; 0 at the end of the text.
    pub length: usize,
    /// The line, from 1.
    pub line: usize,
    /// The column in characters, from 1.
    pub column: usize,
    /// The kind of the fault.
    pub kind: FaultKind,
    /// The message.
    pub message: String,
    /// A suggestion.
    pub hint: Option<String>,
    /// A list of what could be at this position.
    pub expected: Option<String>,
}

impl fmt::Display for Fault {
    fn fmt(&self, f: &mut fmt::Formatter<'_>) -> fmt::Result {
        write!(f, "{}:{}: {}", self.line, self.column, self.message)
    }
}

impl error::Error for Fault {}

/// The text can't be listed, printed or formatted.
#[derive(Clone, Debug, PartialEq, Eq)]
pub struct Refused {
    /// The reason, as the program `wat` prints it for a file with the name of the text.
    pub report: String,
    /// The faults that [`check_syntax()`] returns for the text. Empty if the only reason is a float literal, which `check`
    /// accepts.
    pub faults: Vec<Fault>,
}

impl fmt::Display for Refused {
    fn fmt(&self, f: &mut fmt::Formatter<'_>) -> fmt::Result {
        f.write_str(&self.report)
    }
}

impl error::Error for Refused {}

/// An allocation failed. This is no answer for the text.
#[derive(Clone, Copy, Debug, PartialEq, Eq)]
pub struct OutOfMemory;

impl fmt::Display for OutOfMemory {
    fn fmt(&self, f: &mut fmt::Formatter<'_>) -> fmt::Result {
        f.write_str("out of memory")
    }
}

impl error::Error for OutOfMemory {}

/// The error of [`list()`], [`print()`] and [`format()`].
#[derive(Clone, Debug, PartialEq, Eq)]
pub enum Error {
    /// The text can't be listed, printed or formatted.
    Refused(Refused),
    /// An allocation failed.
    OutOfMemory,
}

impl fmt::Display for Error {
    fn fmt(&self, f: &mut fmt::Formatter<'_>) -> fmt::Result {
        match self {
            Error::Refused(refused) => fmt::Display::fmt(refused, f),
            Error::OutOfMemory => fmt::Display::fmt(&OutOfMemory, f),
        }
    }
}

impl error::Error for Error {}

impl From<OutOfMemory> for Error {
    fn from(_: OutOfMemory) -> Self {
        Error::OutOfMemory
    }
}

/// Returns whether a call with this status refused the text.
fn is_refused(status: i32) -> Result<bool, OutOfMemory> {
    match status {
        0 => Ok(false),
        1 => Ok(true),
        _ => Err(OutOfMemory),
    }
}

/// Returns a vector of `length` items.
fn filled<T: Clone + Default>(length: usize) -> Result<Vec<T>, OutOfMemory> {
    let mut items = Vec::new();
    items.try_reserve_exact(length).map_err(|_| OutOfMemory)?;
    items.resize(length, T::default());
    Ok(items)
}

fn words(bytes: &[u8]) -> Result<String, OutOfMemory> {
    let mut copy = String::new();
    copy.try_reserve_exact(bytes.len()).map_err(|_| OutOfMemory)?;
    copy.push_str(std::str::from_utf8(bytes).expect("libwat writes UTF-8"));
    Ok(copy)
}

/// Returns whether the text is refused, and the output. Calls again with a greater buffer if the output doesn't fit.
fn output(call: impl Fn(*mut u8, usize, &mut usize) -> i32) -> Result<(bool, String), OutOfMemory> {
    let mut room = filled(4096)?;
    loop {
        let mut needed = 0;
        let refused = is_refused(call(room.as_mut_ptr(), room.len(), &mut needed))?;
        if needed <= room.len() {
            return Ok((refused, words(&room[..needed])?));
        }
        room = filled(needed)?;
    }
}

fn output_of(call: OfText, name: &[u8], text: &[u8]) -> Result<(bool, String), OutOfMemory> {
    // SAFETY: each pointer points to as many bytes as the number after it says, and the buffers don't overlap.
    output(|room, length, needed| unsafe {
        call(name.as_ptr(), name.len(), text.as_ptr(), text.len(), room, length, needed)
    })
}

/// Returns the output, or an error if the text is refused.
fn answer(text: &[u8], (refused, output): (bool, String)) -> Result<String, Error> {
    if refused { Err(Error::Refused(Refused { report: output, faults: check_syntax(text)? })) } else { Ok(output) }
}

fn fault(record: &Record, messages: &[u8]) -> Result<Fault, OutOfMemory> {
    let part = |start: usize, end: usize| (start < end).then(|| words(&messages[start..end])).transpose();
    Ok(Fault {
        offset: record.offset,
        length: record.length,
        line: record.line,
        column: record.column,
        kind: FaultKind::of(record.fault),
        message: words(&messages[record.message..record.hint])?,
        hint: part(record.hint, record.expected)?,
        expected: part(record.expected, record.end)?,
    })
}

fn faults(records: &[Record], messages: &[u8]) -> Result<Vec<Fault>, OutOfMemory> {
    let mut found = Vec::new();
    found.try_reserve_exact(records.len()).map_err(|_| OutOfMemory)?;
    for record in records {
        found.push(fault(record, messages)?);
    }
    Ok(found)
}

/// Returns the faults of the text; the list is empty for a module without errors of names, blocks and imports.
/// Types, and indices that are numbers, aren't checked.
///
/// # Errors
/// An allocation fails.
pub fn check(text: impl AsRef<[u8]>) -> Result<Vec<Fault>, OutOfMemory> {
    faults_of(wat_faults, text.as_ref())
}

/// Returns the faults that [`check()`] returns, without the errors of names, blocks and imports.
///
/// # Errors
/// An allocation fails.
pub fn check_syntax(text: impl AsRef<[u8]>) -> Result<Vec<Fault>, OutOfMemory> {
    faults_of(wat_faults_syntax, text.as_ref())
}

/// Returns the faults of the text that a call writes.
fn faults_of(call: Faults, text: &[u8]) -> Result<Vec<Fault>, OutOfMemory> {
    let (mut records, mut messages) = (filled(32)?, filled(4096)?);
    loop {
        let (mut count, mut needed) = (0, 0);
        // SAFETY: as in output_of; `records` has as many records as `space` says.
        let status = unsafe {
            call(
                text.as_ptr(),
                text.len(),
                records.as_mut_ptr(),
                records.len(),
                &mut count,
                messages.as_mut_ptr(),
                messages.len(),
                &mut needed,
            )
        };
        is_refused(status)?;
        if count <= records.len() && needed <= messages.len() {
            return faults(&records[..count], &messages);
        }
        records = filled(count.max(records.len()))?;
        messages = filled(needed.max(messages.len()))?;
    }
}

/// Returns the report that `wat check` prints for the text in a file with this name; empty for a module.
///
/// # Errors
/// An allocation fails.
pub fn report_named(name: impl AsRef<[u8]>, text: impl AsRef<[u8]>) -> Result<String, OutOfMemory> {
    Ok(output_of(wat_check_named, name.as_ref(), text.as_ref())?.1)
}

/// Returns the report that `wat check` prints for the text; empty for a module.
///
/// # Errors
/// An allocation fails.
pub fn report(text: impl AsRef<[u8]>) -> Result<String, OutOfMemory> {
    report_named(NO_NAME, text)
}

/// Returns the formatted text: only white space differs.
///
/// # Errors
/// The text has an invalid token, or an allocation fails.
pub fn format_named(name: impl AsRef<[u8]>, text: impl AsRef<[u8]>) -> Result<String, Error> {
    let text = text.as_ref();
    answer(text, output_of(wat_format_named, name.as_ref(), text)?)
}

/// Returns the formatted text: only white space differs.
///
/// # Errors
/// The text has an invalid token, or an allocation fails.
pub fn format(text: impl AsRef<[u8]>) -> Result<String, Error> {
    format_named(NO_NAME, text)
}

/// Returns a text that parses back to the same module, flat and without comments; if `line` is true, on one line.
///
/// # Errors
/// The text isn't a module, or has a float literal, or an allocation fails.
pub fn print_named(name: impl AsRef<[u8]>, text: impl AsRef<[u8]>, line: bool) -> Result<String, Error> {
    let (name, text) = (name.as_ref(), text.as_ref());
    // SAFETY: as in output_of.
    let call = |room, length, needed: &mut usize| unsafe {
        wat_print_named(name.as_ptr(), name.len(), text.as_ptr(), text.len(), line, room, length, needed)
    };
    answer(text, output(call)?)
}

/// Returns a text that parses back to the same module, flat and without comments; if `line` is true, on one line.
///
/// # Errors
/// The text isn't a module, or has a float literal, or an allocation fails.
pub fn print(text: impl AsRef<[u8]>, line: bool) -> Result<String, Error> {
    print_named(NO_NAME, text, line)
}

/// Returns the contents of the module, one field or instruction per line.
///
/// # Errors
/// The text isn't a module, or has a float literal, or an allocation fails.
pub fn list_named(name: impl AsRef<[u8]>, text: impl AsRef<[u8]>) -> Result<String, Error> {
    let text = text.as_ref();
    answer(text, output_of(wat_list_named, name.as_ref(), text)?)
}

/// Returns the contents of the module, one field or instruction per line.
///
/// # Errors
/// The text isn't a module, or has a float literal, or an allocation fails.
pub fn list(text: impl AsRef<[u8]>) -> Result<String, Error> {
    list_named(NO_NAME, text)
}

/// Returns the name and the version of the library.
///
/// # Errors
/// An allocation fails.
pub fn version() -> Result<String, OutOfMemory> {
    // SAFETY: as in output_of.
    Ok(output(|room, length, needed| unsafe { wat_version(room, length, needed) })?.1)
}

#[cfg(test)]
mod tests {
    use super::*;

    #[test]
    fn no_memory_is_an_error() {
        assert_eq!(output(|_, _, _| 2), Err(OutOfMemory));
        assert_eq!(filled::<Record>(usize::MAX / 2).map(|it| it.len()), Err(OutOfMemory));
    }

    #[test]
    fn kinds_have_numbers() {
        for number in 0..200 {
            assert_eq!(FaultKind::of(number).number(), number);
        }
        assert_eq!(FaultKind::of(12).name(), "Operator");
    }
}
