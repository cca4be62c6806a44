use crate::Refusal;

/// The 7.2 MHz reference in 1/65,536 Hz.
const REFERENCE_FREQUENCY: u64 = 7_200_000 * 65_536;
const SENSOR_LIMIT: u64 = 1_048_576;
const LOWEST_FREQUENCY: u64 = 655_360_000;
const HIGHEST_FREQUENCY: u64 = 6_553_600_000;

/// How many cycles the sensor ran.
#[derive(Debug, Clone, Copy, PartialEq, Eq)]
pub struct SensorCycles(pub u64);

/// How many cycles of the reference were counted meanwhile.
#[derive(Debug, Clone, Copy, PartialEq, Eq)]
pub struct ReferenceCycles(pub u64);

/// The counts of one sensor.
#[derive(Debug, Clone, Copy, PartialEq, Eq)]
pub struct Channel {
    /// The sensor's own cycles.
    pub sensor: SensorCycles,
    /// The reference's cycles.
    pub reference: ReferenceCycles,
}

/// The counts of both sensors.
#[derive(Debug, Clone, Copy, PartialEq, Eq)]
pub struct Counts {
    /// The pressure sensor's.
    pub pressure: Channel,
    /// The temperature sensor's.
    pub temperature: Channel,
}

/// The channel's frequency in 1/65,536 Hz (numbers 21 to 23).
pub(crate) fn frequency(counts: Channel, channel: u64) -> Result<u64, Refusal> {
    let SensorCycles(sensor) = counts.sensor;
    let ReferenceCycles(reference) = counts.reference;
    if sensor == 0 || sensor > SENSOR_LIMIT {
        return Err(Refusal::with(21, channel));
    }
    if reference == 0 {
        return Err(Refusal::with(22, channel));
    }
    // Below 2^59. The half is judged on the remainder, which cannot overflow.
    let cycles = REFERENCE_FREQUENCY * sensor;
    let remainder = cycles % reference;
    let frequency = cycles / reference + u64::from(remainder >= reference - remainder);
    if !(LOWEST_FREQUENCY..=HIGHEST_FREQUENCY).contains(&frequency) {
        return Err(Refusal::with(23, channel));
    }
    Ok(frequency)
}
