//! The program for people: every answer comes from the proved library, and is
//! told in words.

mod arguments;
mod card;
mod caret;
mod csv;
mod decimal;
mod descriptors;
mod fault;
mod gauge;
mod given;
mod help;
mod levels;
mod line;
mod machine;
mod reading;
mod refusal;
mod sections;
mod status;
mod text;
mod trim;
mod version;
mod words;

#[cfg(test)]
mod tests;

use status::{Failure, Status};
use std::env;
use std::ffi::OsString;
use std::io::{self, BufWriter, Write};
use std::process::ExitCode;

fn main() -> ExitCode {
    let given: Vec<OsString> = env::args_os().skip(1).collect();
    let mut errors = io::stderr();
    let status = answer(&given, &mut errors).unwrap_or_else(|failure| {
        let words = match failure {
            Failure::Said(words) => words,
            Failure::Output(error) => {
                let error = machine::in_words(&error);
                format!("the answer, or a part of it, is lost: {error}")
            }
        };
        // Where standard error is gone too, the exit status still tells.
        let _ = writeln!(errors, "bjorkneve: {words}");
        Status::NoAnswer
    });
    ExitCode::from(status as u8)
}

fn answer(given: &[OsString], errors: &mut impl Write) -> Result<Status, Failure> {
    let mut out = BufWriter::new(descriptors::output()?);
    let status = run(given, &mut out, errors);
    let flushed = out.flush();
    let status = status?;
    flushed?;
    Ok(status)
}

/// Runs the program that is named first.
fn run(
    given: &[OsString],
    out: &mut impl Write,
    errors: &mut impl Write,
) -> Result<Status, Failure> {
    let Some((name, rest)) = given.split_first() else {
        let _ = errors.write_all(help::PROGRAM.as_bytes());
        return Ok(Status::NoAnswer);
    };
    let name = arguments::shown(name);
    if arguments::asks(given, "--version") {
        version::print(out)?;
        return Ok(Status::Answered);
    }
    if name == "help" || name == "--help" {
        return match rest.iter().find(|word| *word != "--help") {
            None => said(out, help::PROGRAM),
            Some(program) => said(out, help_of(&arguments::shown(program))?),
        };
    }
    let help = help_of(&name)?;
    if arguments::asks(rest, "--help") {
        return said(out, help);
    }
    match name.as_str() {
        "words" => words::program(rest, out, errors),
        "reading" => reading::program(rest, out, errors),
        _ => card::program(rest, out),
    }
}

fn help_of(program: &str) -> Result<&'static str, String> {
    Ok(match program {
        "words" => help::WORDS,
        "reading" => help::READING,
        "card" => help::CARD,
        _ => return Err(format!("no program '{program}'; bjorkneve help lists them")),
    })
}

fn said(out: &mut impl Write, words: &str) -> Result<Status, Failure> {
    out.write_all(words.as_bytes())?;
    Ok(Status::Answered)
}
