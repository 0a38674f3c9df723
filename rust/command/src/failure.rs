//! Why a command ended without doing what it was asked.

use std::fmt::Display;
use std::io::{self, Write};

use crate::status;

/// The exit status, and a line for standard error.
#[derive(Debug, PartialEq, Eq)]
pub struct Failure {
    pub status: u8,
    pub message: String,
}

impl Failure {
    /// The command was given wrong.
    pub fn usage(message: impl Into<String>) -> Failure {
        Failure {
            status: status::USAGE,
            message: message.into(),
        }
    }

    /// A file could not be read or written.
    pub fn file(path: impl Display, why: impl Display) -> Failure {
        Failure {
            status: status::FILE,
            message: format!("{path}: {why}"),
        }
    }
}

/// A line on standard error. Where that is closed there is nobody to tell.
pub fn say(message: impl Display) {
    let _ = writeln!(io::stderr(), "mezhtolik: {message}");
}

/// The exit status of what a command did; a failure is said on standard error.
pub fn ended(outcome: Result<u8, Failure>) -> u8 {
    outcome.unwrap_or_else(|failure| {
        say(&failure.message);
        failure.status
    })
}

/// Writes to standard output; a pipe that was closed is a failure like any other.
pub fn print(text: &[u8]) -> Result<(), Failure> {
    let mut output = io::stdout().lock();
    output
        .write_all(text)
        .and_then(|()| output.flush())
        .map_err(|error| Failure::file("standard output", error))
}
