//! `reading --csv`: a line of counts in, a line with its answer out.

use crate::decimal::measured;
use crate::descriptors;
use crate::given::{counts_of, Given};
use crate::reading::NO_READING;
use crate::refusal::{place, tell, Refused};
use crate::status::{Failure, Status};
use crate::{levels, text};
use bjorkneve::{Counts, Refusal, LARGEST_IMAGE};
use std::ffi::OsStr;
use std::io::{self, BufRead, BufReader, Read, Write};

/// Characters of the longest line that is looked at: four counts of 20 digits, and blanks.
const LONGEST_LINE: usize = 255;

pub fn program(
    file: &OsStr,
    level: u64,
    out: &mut impl Write,
    errors: &mut impl Write,
) -> Result<Status, Failure> {
    if file == text::STANDARD_INPUT {
        return Err("with --csv the counts are on standard input: name the text's file".into());
    }
    let text = text::read(file).map_err(|error| text::cannot_read(file, &error))?;
    let mut buffer = [0; LARGEST_IMAGE];
    // On standard output a refusal of the text would be taken for the answer to a line.
    let image = match text::image(&text, &mut buffer) {
        Ok(image) => image,
        Err(refusal) => return Ok(tell(errors, NO_READING, Refused::Text(&text), refusal)?),
    };
    if let Err(refusal) = levels::verdict(image, level) {
        let given = Given {
            level,
            counts: None,
        };
        return Ok(tell(
            errors,
            NO_READING,
            Refused::Image(image, given),
            refusal,
        )?);
    }
    let input = descriptors::input().map_err(no_counts)?;
    readings(BufReader::new(input), image, level, out)
}

fn no_counts(error: io::Error) -> String {
    text::cannot_read(text::STANDARD_INPUT.as_ref(), &error)
}

/// Answers each line. What is written goes out whenever the next line isn't there yet.
pub fn readings(
    mut input: BufReader<impl Read>,
    image: &[u8],
    level: u64,
    out: &mut impl Write,
) -> Result<Status, Failure> {
    let mut status = Status::Answered;
    for number in 1_u64.. {
        if !input.buffer().contains(&b'\n') {
            out.flush()?;
        }
        let line = next_line(&mut input).map_err(no_counts)?;
        let Some(line) = line else {
            break;
        };
        status = status.max(answer(out, number, &line, image, level)?);
    }
    Ok(status)
}

fn answer(
    out: &mut impl Write,
    number: u64,
    line: &[u8],
    image: &[u8],
    level: u64,
) -> io::Result<Status> {
    let counts = match counts_in(line) {
        Ok(counts) => counts,
        Err(words) => {
            writeln!(out, "error,line {number},{}", quoted(&words))?;
            return Ok(Status::NoAnswer);
        }
    };
    match levels::reading(image, level, counts) {
        Ok(reading) => {
            let (pressure, temperature) =
                (measured(reading.pressure), measured(reading.temperature));
            let (unit, mark) = (reading.unit, reading.mark.0);
            let first = if mark == 0 { "reading" } else { "marked" };
            writeln!(out, "{first},{pressure},{unit},{temperature},{mark}")?;
            Ok(Status::Answered)
        }
        Err(refusal) => {
            let mut words = refusal.what_happened().unwrap_or_default().to_string();
            let given = Given {
                level,
                counts: Some(counts),
            };
            if let Some(place) = place(image, given, refusal) {
                words.push_str(&format!(" Where: {place}."));
            }
            let (
                words,
                Refusal {
                    number: fault,
                    detail,
                },
            ) = (quoted(&words), refusal);
            writeln!(out, "refused,line {number},{fault},{detail},{words}")?;
            Ok(Status::Refused)
        }
    }
}

fn counts_in(line: &[u8]) -> Result<Counts, String> {
    if line.len() > LONGEST_LINE {
        return Err(format!("the line has more than {LONGEST_LINE} characters"));
    }
    let line = String::from_utf8_lossy(line);
    let words: Vec<&str> = line
        .split(',')
        .map(|word| word.trim_matches([' ', '\t']))
        .collect();
    counts_of(&words)
}

/// The next line without its line end, no more than one character above the longest; nothing at the end.
fn next_line(input: &mut BufReader<impl Read>) -> io::Result<Option<Vec<u8>>> {
    let mut line = Vec::new();
    let read = input
        .by_ref()
        .take(LONGEST_LINE as u64 + 3)
        .read_until(b'\n', &mut line)?;
    if read == 0 {
        return Ok(None);
    }
    match line.strip_suffix(b"\n") {
        Some(bare) => line.truncate(bare.strip_suffix(b"\r").unwrap_or(bare).len()),
        None => {
            input.skip_until(b'\n')?;
        }
    }
    Ok(Some(line))
}

fn quoted(words: &str) -> String {
    format!("\"{}\"", words.replace('"', "\"\""))
}
