//! The levels that are asked about, as numbers that a person may have given.

use bjorkneve::{Counts, Level, Reading, Refusal};

/// Every level that there is.
pub fn all() -> Vec<u64> {
    (1..).take_while(|number| level(*number).is_ok()).collect()
}

/// The level of this number; a refusal by 20 where there is none.
pub fn level(number: u64) -> Result<Level, Refusal> {
    // One beyond 32 bits is as little a level as the largest of 32.
    Level::try_from(u32::try_from(number).unwrap_or(u32::MAX))
}

/// What a panel of the level says to an image.
pub fn verdict(image: &[u8], number: u64) -> Result<(), Refusal> {
    bjorkneve::verdict(image, level(number)?)
}

/// The reading of a panel of the level.
pub fn reading(image: &[u8], number: u64, counts: Counts) -> Result<Reading, Refusal> {
    bjorkneve::reading(image, level(number)?, counts)
}

/// The numbers in words, the last after this word: `1 and 2`.
pub fn listed(levels: &[u64], word: &str) -> String {
    let numbers: Vec<String> = levels.iter().map(u64::to_string).collect();
    match &numbers[..] {
        [before @ .., last] if !before.is_empty() => {
            format!("{} {word} {last}", before.join(", "))
        }
        _ => numbers.concat(),
    }
}

/// The levels in words, as `level 1 and level 2`.
pub fn named(levels: &[u64]) -> String {
    format!("level {}", listed(levels, "and level"))
}
