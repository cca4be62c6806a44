//! The words that a program is given: its options, and the others in their order.

use std::ffi::{OsStr, OsString};

/// From here on there are no options.
const END_OF_OPTIONS: &str = "--";

pub struct Arguments {
    pub operands: Vec<OsString>,
    options: Vec<(&'static str, OsString)>,
}

impl Arguments {
    /// Takes these options out of what is given, first those without and then those with a value.
    pub fn of(
        program: &str,
        given: &[OsString],
        plain: &[&'static str],
        valued: &[&'static str],
    ) -> Result<Self, String> {
        let mut arguments = Arguments {
            operands: Vec::new(),
            options: Vec::new(),
        };
        let mut given = given.iter();
        while let Some(word) = given.next() {
            if word == END_OF_OPTIONS {
                arguments.operands.extend(given.cloned());
                break;
            }
            if !is_option(word) {
                arguments.operands.push(word.clone());
            } else if let Some(option) = plain.iter().find(|option| word == **option) {
                arguments.options.push((*option, OsString::new()));
            } else if let Some(option) = valued.iter().find(|option| word == **option) {
                let value = given
                    .next()
                    .ok_or_else(|| format!("{option} wants a value"))?;
                arguments.options.push((*option, value.clone()));
            } else {
                return Err(format!("{program} has no option '{}'", shown(word)));
            }
        }
        Ok(arguments)
    }

    /// The value of an option, the last one where it is given twice; empty for one without a value.
    pub fn value(&self, option: &str) -> Option<&OsStr> {
        let given = self.options.iter().rev().find(|(name, _)| *name == option);
        given.map(|(_, value)| value.as_os_str())
    }
}

/// Whether an option that every program has is given.
pub fn asks(given: &[OsString], option: &str) -> bool {
    given
        .iter()
        .take_while(|word| *word != END_OF_OPTIONS)
        .any(|word| word == option)
}

/// `-` is standard input, and a number below 0 is a wrong count rather than an option.
fn is_option(word: &OsStr) -> bool {
    match word.as_encoded_bytes() {
        [b'-', second, ..] => !second.is_ascii_digit(),
        _ => false,
    }
}

/// A whole number of up to 64 bits.
pub fn number(name: &str, word: &OsStr) -> Result<u64, String> {
    let is_digits = |word: &&str| !word.is_empty() && word.bytes().all(|c| c.is_ascii_digit());
    let Some(digits) = word.to_str().filter(is_digits) else {
        let word = shown(word);
        return Err(format!(
            "{name}: '{word}' is not a number as expected: digits only, without commas"
        ));
    };
    let too_large = |_| format!("{name}: {digits} is too large: {} at most", u64::MAX);
    digits.parse().map_err(too_large)
}

/// The number of a level, whether or not there is one.
pub fn level_of(word: &OsStr) -> Result<u64, String> {
    number("LEVEL", word)
}

/// A word on the page, without characters that would change the page around it.
pub fn shown(word: &OsStr) -> String {
    let harmless = |character: char| {
        if character.is_control() {
            '?'
        } else {
            character
        }
    };
    word.to_string_lossy().chars().map(harmless).collect()
}
