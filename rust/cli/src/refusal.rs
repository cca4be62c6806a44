//! A refusal in words: what happened, where, what to do.

use crate::caret;
use crate::fault::fault;
use crate::given::Given;
use crate::levels;
use crate::sections::{self, counted, IDENTITY, NOTE, PRESSURE_SET, TEMPERATURE_SET, TRIM};
use crate::status::Status;
use bjorkneve::{refused, Refusal};
use std::io::{self, Write};

/// What was refused, to tell where in it the fault is.
#[derive(Clone, Copy)]
pub enum Refused<'a> {
    Text(&'a [u8]),
    /// The image of a good text, and what was given with it.
    Image(&'a [u8], Given),
}

/// Tells a refusal after the words that open it, and is the status that it gives.
pub fn tell(
    out: &mut impl Write,
    opening: &str,
    what: Refused,
    refusal: Refusal,
) -> io::Result<Status> {
    let Refusal { number, detail } = refusal;
    writeln!(out, "{opening}: fault {number}, detail {detail}.")?;
    if let Some(words) = refusal.what_happened() {
        writeln!(out, "    What happened: {words}")?;
    }
    match what {
        Refused::Text(text) => tell_fault(out, text, refusal)?,
        Refused::Image(image, given) => {
            if let Some(place) = place(image, given, refusal) {
                writeln!(out, "    Where: {place}.")?;
            }
        }
    }
    if let Some(words) = what_to_do(refusal) {
        writeln!(out, "    What to do: {words}")?;
    }
    Ok(Status::Refused)
}

fn tell_fault(out: &mut impl Write, text: &[u8], refusal: Refusal) -> io::Result<()> {
    let fault = fault(text, refusal);
    write!(out, "    Where:")?;
    if refusal.detail > 0 {
        write!(out, " line {}.", refusal.detail)?;
    }
    if !fault.words.is_empty() {
        write!(out, " {}", fault.words)?;
    }
    writeln!(out)?;
    if let Some(line) = fault.line {
        for row in caret::shown(line, &fault.pointed)
            .iter()
            .filter(|row| !row.is_empty())
        {
            writeln!(out, "        {row}")?;
        }
    }
    Ok(())
}

/// Where in an image, or in what was given with it, the refusal says the fault is.
pub fn place(image: &[u8], given: Given, refusal: Refusal) -> Option<String> {
    let section = |kind| Some(kind_in_words(kind));
    let size = counted(image.len(), "byte");
    match refusal.number {
        refused::NOT_AN_IMAGE => {
            let first = image
                .first()
                .map(|byte| format!(", and its first is hexadecimal {byte:02X}"));
            Some(format!("the image has {size}{}", first.unwrap_or_default()))
        }
        refused::CONTENTS_COUNT => {
            let lines = image.get(1)?;
            Some(format!(
                "byte 1, the number of contents lines, is {lines}, and the image has {size}"
            ))
        }
        refused::CONTENTS_LINE if u64::from(*image.get(1)?) == refusal.detail => {
            Some("after the contents lines: the last body doesn't end where the image ends".into())
        }
        refused::CONTENTS_LINE | refused::BODY_SUM => {
            let (line, kind) = (refusal.detail, stated_kind(image, refusal.detail)?);
            Some(format!(
                "contents line {line}, counted from 0, with {}",
                kind_in_words(kind)
            ))
        }
        refused::UNKNOWN_KIND | refused::MISSING_KIND => {
            section(u8::try_from(refusal.detail).ok()?)
        }
        refused::IDENTITY => section(IDENTITY),
        refused::PRESSURE_SET => section(PRESSURE_SET),
        refused::TEMPERATURE_SET => section(TEMPERATURE_SET),
        refused::TRIM => section(TRIM),
        refused::NOTE => section(NOTE),
        refused::NO_SUCH_LEVEL => {
            let levels = levels::listed(&levels::all(), "and");
            Some(format!("LEVEL is {}; levels are {levels}", given.level))
        }
        _ => {
            let place = refusal.detail_means()?;
            let named = given.named(refusal).map(|words| format!(". {words}"));
            Some(format!("{place}{}", named.unwrap_or_default()))
        }
    }
}

fn kind_in_words(kind: u8) -> String {
    format!("kind {kind}, {}", sections::name(kind))
}

/// The kind that a contents line states: the library finds no section in an image whose layout it refuses.
fn stated_kind(image: &[u8], line: u64) -> Option<u8> {
    const HEAD: usize = 2;
    const LINE: usize = 8;
    image
        .get(HEAD + LINE * usize::try_from(line).ok()?)
        .copied()
}

/// The card's words; where a number that a person gave is refused, first that one.
fn what_to_do(refusal: Refusal) -> Option<String> {
    let words = refusal.what_to_do()?;
    Some(match refusal.number {
        refused::NO_SUCH_LEVEL => {
            let levels = levels::listed(&levels::all(), "or");
            format!("Give the panel's level, {levels}. Its maker tells which it is.")
        }
        refused::SENSOR_CYCLES | refused::REFERENCE_CYCLES | refused::FREQUENCY => {
            let (first, rest) = words.split_at(1);
            let then = first.to_lowercase() + rest;
            format!("First check the counts that you gave. Then {then}")
        }
        _ => words.into(),
    })
}
