//! What the program comes to: its exit status, or why it has no answer.

use std::io;

/// The exit status, from the best to the worst.
#[derive(Debug, Clone, Copy, PartialEq, Eq, PartialOrd, Ord)]
pub enum Status {
    Answered = 0,
    Refused = 1,
    NoAnswer = 2,
}

/// Why there is no answer at all.
#[derive(Debug)]
pub enum Failure {
    /// What the program says of it, on standard error.
    Said(String),
    /// The answer could not be written.
    Output(io::Error),
}

impl From<io::Error> for Failure {
    fn from(error: io::Error) -> Self {
        Failure::Output(error)
    }
}

impl From<String> for Failure {
    fn from(words: String) -> Self {
        Failure::Said(words)
    }
}

impl From<&str> for Failure {
    fn from(words: &str) -> Self {
        Failure::Said(words.into())
    }
}
