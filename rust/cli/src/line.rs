//! A line of a HEX text, and where a record's fields stand in it.

use std::ops::Range;

// A record's characters: colon, count, address, type, data, checksum.
pub const COUNT: Range<usize> = 1..3;
pub const ADDRESS: Range<usize> = 3..7;
pub const TYPE: Range<usize> = 7..9;
/// Characters of a record without data.
pub const WITHOUT_DATA: usize = 11;

pub struct Line<'a> {
    /// Without the line end.
    pub characters: &'a [u8],
    /// By LF or CR LF.
    pub ended: bool,
}

impl<'a> Line<'a> {
    pub fn new(whole: &'a [u8]) -> Self {
        let bare = whole.strip_suffix(b"\n");
        let characters = bare.map_or(whole, |bare| bare.strip_suffix(b"\r").unwrap_or(bare));
        Line {
            characters,
            ended: bare.is_some(),
        }
    }

    /// The number in these columns; nothing where they aren't all digits.
    pub fn number(&self, columns: Range<usize>) -> Option<usize> {
        let digits = self.characters.get(columns)?;
        digits.iter().try_fold(0, |value, digit| {
            Some(16 * value + (*digit as char).to_digit(16)? as usize)
        })
    }

    /// The count of a good line.
    pub fn count(&self) -> usize {
        self.number(COUNT).unwrap_or(0)
    }

    pub fn is_end(&self) -> bool {
        self.number(TYPE) == Some(1)
    }
}
