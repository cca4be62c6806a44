//! A HEX text read whole, from a file or from standard input.

use crate::{arguments, descriptors, machine};
use bjorkneve::{refused, Refusal, LONGEST_SHOWN_TEXT};
use std::ffi::OsStr;
use std::fs::File;
use std::io::{self, Read};

/// The name of standard input.
pub const STANDARD_INPUT: &str = "-";

/// The text of the file, no more than one byte above the longest.
pub fn read(name: &OsStr) -> io::Result<Vec<u8>> {
    let file = if name == STANDARD_INPUT {
        descriptors::input()?
    } else {
        File::open(name)?
    };
    let mut text = Vec::new();
    file.take(LONGEST_SHOWN_TEXT as u64 + 1)
        .read_to_end(&mut text)?;
    Ok(text)
}

/// The image of a text; a text that is too long is refused as by `show`.
pub fn image<'a>(text: &[u8], buffer: &'a mut [u8]) -> Result<&'a [u8], Refusal> {
    if text.len() > LONGEST_SHOWN_TEXT {
        return Err(Refusal {
            number: refused::TOO_LARGE,
            detail: 0,
        });
    }
    bjorkneve::read(text, buffer)
}

/// Why a file could not be read, in words.
pub fn cannot_read(name: &OsStr, error: &io::Error) -> String {
    format!("cannot read {}: {}", shown(name), machine::in_words(error))
}

/// A file's name on the page.
pub fn shown(name: &OsStr) -> String {
    if name == STANDARD_INPUT {
        return "standard input".into();
    }
    arguments::shown(name)
}
