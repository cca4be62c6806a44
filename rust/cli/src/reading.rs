//! `reading`: one reading in units, or why there is none.

use crate::arguments::{level_of, Arguments};
use crate::decimal::measured;
use crate::gauge::Gauge;
use crate::given::{counts_of, Given, COUNT_NAMES};
use crate::refusal::{tell, Refused};
use crate::status::{Failure, Status};
use crate::{csv, levels, text};
use bjorkneve::{Counts, Reading, Refusal, LARGEST_IMAGE};
use std::ffi::{OsStr, OsString};
use std::io::{self, Write};

/// How a refusal opens where a reading was asked for.
pub const NO_READING: &str = "There is no reading";

pub fn program(
    given: &[OsString],
    out: &mut impl Write,
    errors: &mut impl Write,
) -> Result<Status, Failure> {
    let arguments = Arguments::of("reading", given, &["--csv"], &[])?;
    let many = arguments.value("--csv").is_some();
    match &arguments.operands[..] {
        [file, level] if many => csv::program(file, level_of(level)?, out, errors),
        [file, level, counts @ ..] if !many && counts.len() == COUNT_NAMES.len() => {
            one(file, level_of(level)?, counts_of(counts)?, out)
        }
        _ if many => Err("reading --csv takes FILE LEVEL".into()),
        _ => Err(format!("reading takes FILE LEVEL {}", COUNT_NAMES.join(" ")).into()),
    }
}

fn one(file: &OsStr, level: u64, counts: Counts, out: &mut impl Write) -> Result<Status, Failure> {
    let text = text::read(file).map_err(|error| text::cannot_read(file, &error))?;
    Ok(reading(out, &text, level, counts)?)
}

/// Tells the reading of a text's image.
pub fn reading(
    out: &mut impl Write,
    text: &[u8],
    level: u64,
    counts: Counts,
) -> io::Result<Status> {
    let mut buffer = [0; LARGEST_IMAGE];
    let image = match text::image(text, &mut buffer) {
        Ok(image) => image,
        Err(refusal) => return tell(out, NO_READING, Refused::Text(text), refusal),
    };
    match taken(image, level, counts) {
        Ok((gauge, reading)) => tell_reading(out, level, &gauge, &reading),
        Err(refusal) => {
            let given = Given {
                level,
                counts: Some(counts),
            };
            tell(out, NO_READING, Refused::Image(image, given), refusal)
        }
    }
}

fn taken(image: &[u8], number: u64, counts: Counts) -> Result<(Gauge, Reading), Refusal> {
    let level = levels::level(number)?;
    let gauge = Gauge::accepted(image, level)?;
    Ok((gauge, bjorkneve::reading(image, level, counts)?))
}

fn tell_reading(
    out: &mut impl Write,
    level: u64,
    gauge: &Gauge,
    reading: &Reading,
) -> io::Result<Status> {
    let (pressure, temperature) = (measured(reading.pressure), measured(reading.temperature));
    writeln!(out, "serial number {}, level {level}", gauge.serial)?;
    writeln!(out, "pressure {pressure} {}", reading.unit)?;
    writeln!(out, "temperature {temperature} °C")?;
    writeln!(out, "{}", limits_in_words(gauge, reading))?;
    Ok(Status::Answered)
}

/// Whether the reading lies within the gauge's limits, and what to do where it doesn't.
fn limits_in_words(gauge: &Gauge, reading: &Reading) -> String {
    let before_trim = |words| if gauge.trim.is_some() { words } else { "" };
    let mut outside = Vec::new();
    if reading.mark.pressure_outside() {
        let (before_trim, limits) = (before_trim(" before trim"), gauge.pressure_limits());
        outside.push(format!(
            "the pressure{before_trim} lies outside the gauge's limits, {limits}"
        ));
    }
    if reading.mark.temperature_outside() {
        let limits = gauge.temperature_limits();
        outside.push(format!(
            "the temperature lies outside the gauge's limits, {limits}"
        ));
    }
    if outside.is_empty() {
        let before_trim = before_trim(", the pressure before trim");
        return format!("Both lie within the gauge's limits{before_trim}.");
    }
    format!(
        "Caution: {}. Don't rely on this reading: check the counts, that the file is this gauge's, then the gauge.",
        outside.join("; ")
    )
}
