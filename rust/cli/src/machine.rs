//! What went wrong on the computer itself, in plain words.

use std::io::{Error, ErrorKind};

/// Words of our own for what happens most; for the rest the system's, without its number, which the fault card doesn't have.
pub fn in_words(error: &Error) -> String {
    match error.kind() {
        ErrorKind::NotFound => "there is no such file".into(),
        ErrorKind::IsADirectory => "it is a folder; give a file".into(),
        ErrorKind::StorageFull => "the disk is full".into(),
        _ => {
            let words = error.to_string();
            let end = words.find(" (os error ").unwrap_or(words.len());
            words[..end].into()
        }
    }
}
