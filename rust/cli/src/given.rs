//! The numbers that a person has given: the level, and the counts of a reading.

use crate::arguments::number;
use bjorkneve::{refused, Channel, Counts, ReferenceCycles, Refusal, SensorCycles};
use std::ffi::OsStr;

/// Document 01's names: sensor and reference cycles of the pressure channel, then of the temperature channel.
pub const COUNT_NAMES: [&str; 4] = ["NSP", "NRP", "NST", "NRT"];

/// What was given beside an image.
#[derive(Clone, Copy)]
pub struct Given {
    pub level: u64,
    /// Nothing where no reading is asked for.
    pub counts: Option<Counts>,
}

impl Given {
    /// The counts that were refused so, by name; nothing where it isn't a count that was refused.
    pub fn named(&self, refusal: Refusal) -> Option<String> {
        let counts = self.counts?;
        let (channel, [sensor, reference]) = match refusal.detail {
            1 => (counts.pressure, [COUNT_NAMES[0], COUNT_NAMES[1]]),
            _ => (counts.temperature, [COUNT_NAMES[2], COUNT_NAMES[3]]),
        };
        let (sensors, references) = (channel.sensor.0, channel.reference.0);
        let one = |name, count| format!("{name}, the number that you gave, is {count}");
        match refusal.number {
            refused::SENSOR_CYCLES => Some(one(sensor, sensors)),
            refused::REFERENCE_CYCLES => Some(one(reference, references)),
            refused::FREQUENCY => Some(format!(
                "{sensor} and {reference}, the numbers that you gave, are {sensors} and {references}"
            )),
            _ => None,
        }
    }
}

/// The four counts in their order.
pub fn counts_of(words: &[impl AsRef<OsStr>]) -> Result<Counts, String> {
    let mut counts = [0; COUNT_NAMES.len()];
    if words.len() != counts.len() {
        return Err(format!(
            "four counts were expected: {}, without commas inside a count",
            COUNT_NAMES.join(",")
        ));
    }
    for ((count, name), word) in counts.iter_mut().zip(COUNT_NAMES).zip(words) {
        *count = number(name, word.as_ref())?;
    }
    let channel = |sensor, reference| Channel {
        sensor: SensorCycles(sensor),
        reference: ReferenceCycles(reference),
    };
    Ok(Counts {
        pressure: channel(counts[0], counts[1]),
        temperature: channel(counts[2], counts[3]),
    })
}
