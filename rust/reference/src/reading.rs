use crate::counts::{frequency, Counts};
use crate::set::Names;
use crate::verdict::judge;
use crate::Refusal;

/// What a panel shows.
#[derive(Debug, Clone, Copy, PartialEq, Eq)]
pub struct Reading {
    /// In 1/65,536 of the unit.
    pub pressure: i64,
    /// In 1/65,536 °C.
    pub temperature: i64,
    /// 1 psi, 2 bar, 3 kPa.
    pub unit: u8,
    /// 1 for a temperature, 2 for a pressure outside the identity's limits.
    pub mark: u8,
}

const PRESSURE_SET: Names = Names {
    kind: 2,
    scaled_pressure: 1,
    scaled_temperature: 2,
};

const TEMPERATURE_SET: Names = Names {
    kind: 3,
    scaled_pressure: 3,
    scaled_temperature: 4,
};

/// The reading of an image at a level for the counts of both sensors.
pub fn reading(image: &[u8], level: u32, counts: Counts) -> Result<Reading, Refusal> {
    let accepted = judge(image, level)?;
    let fp = frequency(counts.pressure, 1)?;
    let ft = frequency(counts.temperature, 2)?;
    let pressure = accepted.pressure.evaluate(fp, ft, PRESSURE_SET)?;
    let temperature = accepted.temperature.evaluate(fp, ft, TEMPERATURE_SET)?;

    let limits = &accepted.identity;
    let mark = u8::from(outside(
        temperature,
        limits.lowest_temperature,
        limits.highest_temperature,
    )) + 2 * u8::from(outside(
        pressure,
        limits.lowest_pressure,
        limits.highest_pressure,
    ));
    let (pressure, unit) = match &accepted.trim {
        Some(trim) => (trim.apply(pressure), trim.unit),
        None => (pressure, 1),
    };
    Ok(Reading {
        pressure,
        temperature,
        unit,
        mark,
    })
}

/// Whether a value in 1/65,536 lies outside whole limits.
fn outside(value: i64, lowest: i32, highest: i32) -> bool {
    value < i64::from(lowest) << 16 || value > i64::from(highest) << 16
}
