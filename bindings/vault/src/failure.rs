//! How a command ends: with an answer, or with a failure and its exit status.
use std::io;

/// The end of a command that has its answer.
#[derive(Clone, Copy, Debug, PartialEq, Eq)]
pub enum End {
    /// Exit status 0.
    Done,
    /// Exit status 1: the vault refused, or what was compared differs.
    Refused,
}

/// The end of a command that has no answer.
#[derive(Debug)]
pub enum Failure {
    /// Exit status 2: bad usage or bad input.
    Usage(String),
    /// Exit status 3: a file could not be read or written.
    File(String),
    /// Exit status 3: standard output could not be written.
    Output(io::Error),
}

impl From<String> for Failure {
    fn from(text: String) -> Failure {
        Failure::Usage(text)
    }
}

impl From<io::Error> for Failure {
    fn from(error: io::Error) -> Failure {
        Failure::Output(error)
    }
}

impl Failure {
    pub fn status(&self) -> u8 {
        match self {
            Failure::Usage(_) => 2,
            Failure::File(_) | Failure::Output(_) => 3,
        }
    }

    /// What standard error gets; nothing where the reader of standard output went away.
    pub fn text(&self) -> Option<String> {
        match self {
            Failure::Usage(text) | Failure::File(text) => Some(text.clone()),
            Failure::Output(error) if error.kind() == io::ErrorKind::BrokenPipe => None,
            Failure::Output(error) => Some(format!("standard output: {error}")),
        }
    }
}
