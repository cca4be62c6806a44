//! Where in a HEX text the fault is that the library has named by number and
//! line: what is wrong there, and which characters to point at.

use crate::line::{Line, ADDRESS, COUNT, TYPE, WITHOUT_DATA};
use crate::sections::counted;
use bjorkneve::{refused, Refusal, LARGEST_IMAGE};
use std::ops::Range;

/// A fault of a text.
#[derive(Debug, PartialEq, Eq)]
pub struct Fault<'a> {
    /// What is wrong, in sentences; empty where it can't be told.
    pub words: String,
    /// The line without its line end; nothing where the text stops before it.
    pub line: Option<&'a [u8]>,
    /// The characters at fault, one past the line's end where one is missing.
    pub pointed: Range<usize>,
}

/// The fault of the text that was refused so, by one of the numbers 1 to 4.
pub fn fault(text: &[u8], refusal: Refusal) -> Fault<'_> {
    let Some(before) = usize::try_from(refusal.detail)
        .ok()
        .and_then(|line| line.checked_sub(1))
    else {
        // The text as a whole: only one that is too long is refused without a line.
        let words = format!(
            "The text has more than {} bytes.",
            bjorkneve::LONGEST_SHOWN_TEXT
        );
        return Fault {
            words,
            line: None,
            pointed: 0..0,
        };
    };
    let mut lines = text
        .split_inclusive(|character| *character == b'\n')
        .map(Line::new);
    let good: Vec<Line> = lines.by_ref().take(before).collect();
    let Some(line) = lines.next() else {
        let words = match before {
            0 => "The text is empty.".into(),
            _ => format!("The text stops after line {before}, without the end record."),
        };
        return Fault {
            words,
            line: None,
            pointed: 0..0,
        };
    };
    let (words, pointed) = match refusal.number {
        refused::NOT_A_RECORD if good.last().is_some_and(Line::is_end) => (
            "The text goes on after the end record.".into(),
            0..line.characters.len(),
        ),
        refused::NOT_A_RECORD => not_a_record(&line),
        refused::CHECKSUM => (
            "The error may be anywhere in this line.".into(),
            0..line.characters.len(),
        ),
        refused::RECORD_NOT_TAKEN => not_taken(&line, good.iter().map(Line::count).sum()),
        _ => {
            let words =
                format!("With this record the image would have more than {LARGEST_IMAGE} bytes.");
            (words, 0..line.characters.len())
        }
    };
    Fault {
        words,
        line: Some(line.characters),
        pointed,
    }
}

/// The first fault of form.
fn not_a_record(line: &Line) -> (String, Range<usize>) {
    let characters = line.characters;
    let length = characters.len();
    if length == 0 {
        return ("The line is empty.".into(), 0..0);
    }
    if characters[0] != b':' {
        return ("The line doesn't start with a colon.".into(), 0..1);
    }
    let count = line.number(COUNT);
    let asked = count.map_or(COUNT.end, |count| WITHOUT_DATA + 2 * count);
    let record = &characters[..length.min(asked)];
    let digits = record[1..]
        .iter()
        .take_while(|character| character.is_ascii_hexdigit());
    let place = 1 + digits.count();
    if place < record.len() {
        return (
            format!("{} is no hexadecimal digit.", named(characters[place])),
            place..place + 1,
        );
    }
    let by_its_count = format!(
        "by its count of {} it has {asked} characters",
        counted(line.count(), "data byte")
    );
    if length < asked {
        let end = if line.ended {
            "The line ends"
        } else {
            "The text stops here, within a line,"
        };
        let words = match count {
            None => format!("{end} before its count is told."),
            Some(_) => format!("{end} too early: {by_its_count}, and here are {length}."),
        };
        return (words, length..length + 1);
    }
    match characters[asked..] {
        [] if line.ended => (String::new(), 0..0),
        [] => (
            "The last line has no line end, which every line must have.".into(),
            length..length + 1,
        ),
        [b'\r', ..] => (
            "A wrong line end: a CR stands here without an LF directly after it.".into(),
            asked..asked + 1,
        ),
        _ => (
            format!("The line goes on too long: {by_its_count}."),
            asked..length,
        ),
    }
}

/// Of type, count and address, in this order, the first that isn't taken.
fn not_taken(line: &Line, end_before: usize) -> (String, Range<usize>) {
    let (count, address) = (line.count(), line.number(ADDRESS).unwrap_or(0));
    match line.number(TYPE) {
        Some(0) if count == 0 => ("The count of a data record is 0.".into(), COUNT),
        Some(0) if address != end_before => {
            let words = format!("The address is hexadecimal {address:04X}, and the data before end at {end_before:04X}.");
            (words, ADDRESS)
        }
        Some(1) if count != 0 => ("The count of the end record isn't 0.".into(), COUNT),
        Some(1) if address != 0 => ("The address of the end record isn't 0.".into(), ADDRESS),
        Some(0 | 1) | None => (String::new(), 0..0),
        Some(other) => (
            format!("The type is {other:02X}, and only 00 and 01 are taken."),
            TYPE,
        ),
    }
}

/// A character in words.
fn named(character: u8) -> String {
    match character {
        b' ' => "A blank".into(),
        b'\t' => "A tab".into(),
        b'\r' => "A CR without an LF directly after it".into(),
        0x21..=0x7E => format!("The character {}", character as char),
        _ => format!("The byte hexadecimal {character:02X}"),
    }
}
