//! What ends a command with status 2.
use oletami::Error;
use std::fmt::Display;
use std::io::{self, ErrorKind};

pub enum Failure {
    /// One line.
    Said(String),
    /// Who reads our output has gone, and needs no message.
    Unread,
}

impl Failure {
    pub fn misuse(what: impl Into<String>) -> Self {
        Self::Said(what.into())
    }

    /// Standard output could not be written.
    pub fn output(error: io::Error) -> Self {
        match error.kind() {
            ErrorKind::BrokenPipe => Self::Unread,
            _ => Self::Said(format!("standard output: {error}")),
        }
    }

    pub fn report(&self) {
        if let Self::Said(line) = self {
            eprintln!("pmt: {line}");
        }
    }
}

/// Says which file, tile or option an error is about.
pub trait About<T> {
    fn about(self, what: impl Display) -> Result<T, Failure>;
}

impl<T, E: Into<Error>> About<T> for Result<T, E> {
    fn about(self, what: impl Display) -> Result<T, Failure> {
        self.map_err(|error| Failure::Said(format!("{what}: {}", error.into())))
    }
}
