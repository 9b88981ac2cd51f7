//! How a run ends: the exit status, and the lines on standard error.

use std::fmt;
use std::io::{self, Write};
use std::process::ExitCode;

/// The exit status. Of several files the highest counts. 2 is that of a wrong command line.
#[derive(Clone, Copy, Debug, PartialEq, Eq, PartialOrd, Ord)]
#[repr(u8)]
pub enum Status {
    Clean = 0,
    Cut = 1,
    Stopped = 3,
    Unread = 4,
    /// As a shell says of a program that the signal of a closed pipe ends.
    ClosedPipe = 141,
}

impl From<Status> for ExitCode {
    fn from(status: Status) -> ExitCode {
        ExitCode::from(status as u8)
    }
}

/// Ends a run whose standard output cannot be written: silently where nobody reads it any more.
pub fn output_failed(error: &io::Error) -> Status {
    match error.kind() {
        io::ErrorKind::BrokenPipe => Status::ClosedPipe,
        _ => complain("standard output", error),
    }
}

/// Says of a name why it cannot be read or written.
pub fn complain(name: impl fmt::Display, error: &io::Error) -> Status {
    say(complaint(name, error));
    Status::Unread
}

pub fn complaint(name: impl fmt::Display, error: &io::Error) -> String {
    format!("haspeljo: {name}: {}", reason(error))
}

/// A line on standard error. Where that cannot be written either, nothing is left to be said.
pub fn say(line: impl fmt::Display) {
    let _ = writeln!(io::stderr(), "{line}");
}

/// The system's words, without the number that Rust adds.
pub fn reason(error: &io::Error) -> String {
    let text = error.to_string();
    let number = error.raw_os_error().map(|number| format!(" (os error {number})"));
    match number.as_deref().and_then(|number| text.strip_suffix(number)) {
        Some(words) => words.into(),
        None => text,
    }
}
