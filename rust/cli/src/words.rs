//! `words`: what panels say to a file, in sentences.

use crate::arguments::{level_of, Arguments};
use crate::gauge::Gauge;
use crate::given::Given;
use crate::refusal::{tell, Refused};
use crate::status::{Failure, Status};
use crate::{levels, sections, text};
use bjorkneve::{Refusal, LARGEST_IMAGE};
use std::ffi::OsString;
use std::io::{self, Write};

/// Tells of each file; one that can't be read is told on standard error, and the others all the same.
pub fn program(
    given: &[OsString],
    out: &mut impl Write,
    errors: &mut impl Write,
) -> Result<Status, Failure> {
    let arguments = Arguments::of("words", given, &[], &["--level"])?;
    let asked = match arguments.value("--level") {
        Some(level) => vec![level_of(level)?],
        None => levels::all(),
    };
    let files = match arguments.operands {
        files if files.is_empty() => vec![text::STANDARD_INPUT.into()],
        files => files,
    };
    let mut come_to = Vec::new();
    for (place, file) in files.iter().enumerate() {
        let apart = if place > 0 { "\n" } else { "" };
        come_to.push(match text::read(file) {
            Ok(text) => {
                write!(out, "{apart}")?;
                words(out, &text::shown(file), &text, &asked)?
            }
            Err(error) => {
                out.flush()?;
                let words = text::cannot_read(file, &error);
                // Where standard error is gone too, the exit status still tells.
                let _ = writeln!(errors, "{apart}bjorkneve: {words}");
                Status::NoAnswer
            }
        });
    }
    if files.len() > 1 {
        let [taken, refused, not_read] = [Status::Answered, Status::Refused, Status::NoAnswer]
            .map(|status| come_to.iter().filter(|one| **one == status).count());
        writeln!(
            out,
            "\n{taken} taken by every level asked, {refused} refused, {not_read} could not be read."
        )?;
    }
    Ok(come_to.into_iter().max().unwrap_or(Status::Answered))
}

/// Tells of one text, by its file's name.
pub fn words(out: &mut impl Write, name: &str, text: &[u8], asked: &[u64]) -> io::Result<Status> {
    let mut buffer = [0; LARGEST_IMAGE];
    let image = match text::image(text, &mut buffer) {
        Ok(image) => image,
        Err(refusal) => {
            writeln!(out, "{name}: {NO_PANEL}")?;
            return tell(out, "It is refused", Refused::Text(text), refusal);
        }
    };
    let verdicts = verdicts(image, asked);
    writeln!(out, "{name}: {}", in_one(&verdicts))?;
    // The highest level that accepts knows most of the gauge.
    let mut levels = asked
        .iter()
        .rev()
        .filter_map(|number| levels::level(*number).ok());
    let gauge = levels.find_map(|level| Gauge::accepted(image, level).ok());
    if let Some(gauge) = &gauge {
        gauge.tell(out)?;
    }
    let mut status = Status::Answered;
    for (levels, verdict) in verdicts {
        if let Err(refusal) = verdict {
            let opening = format!("Panels of {} refuse it", levels::named(&levels));
            let given = Given {
                level: levels[0],
                counts: None,
            };
            status = tell(out, &opening, Refused::Image(image, given), refusal)?;
        }
    }
    if bjorkneve::layout(image).is_ok() {
        writeln!(out, "For the engineer:")?;
        if let Some(gauge) = &gauge {
            gauge.tell_engineer(out)?;
        }
        sections::list(out, image)?;
    }
    Ok(status)
}

/// Of a text that is refused.
const NO_PANEL: &str =
    "the file is damaged, made wrong, or no calibration file: no panel takes it.";

/// Levels with what all of them say to an image.
type Verdict = (Vec<u64>, Result<(), Refusal>);

/// The verdicts in the order of the levels, those that are alike as one.
fn verdicts(image: &[u8], asked: &[u64]) -> Vec<Verdict> {
    let mut verdicts: Vec<Verdict> = Vec::new();
    for level in asked {
        let verdict = levels::verdict(image, *level);
        match verdicts.last_mut() {
            Some((levels, alike)) if *alike == verdict => levels.push(*level),
            _ => verdicts.push((vec![*level], verdict)),
        }
    }
    verdicts
}

/// All verdicts in one sentence.
fn in_one(verdicts: &[Verdict]) -> String {
    let levels = |takes| -> Vec<u64> {
        let alike = verdicts
            .iter()
            .filter(|(_, verdict)| verdict.is_ok() == takes);
        alike.flat_map(|(levels, _)| levels.clone()).collect()
    };
    let (take, refuse) = (levels(true), levels(false));
    if take.is_empty() {
        let refuse = levels::listed(&refuse, "or");
        return format!("no panel of level {refuse} takes this file.");
    }
    let take = format!("panels of {} take this file", levels::named(&take));
    if refuse.is_empty() {
        return take + ".";
    }
    format!("{take}, those of {} refuse it.", levels::named(&refuse))
}
