/// How many cycles the sensor ran. Where the reference's are asked for, it is
/// refused by the compiler:
///
/// ```
/// use bjorkneve::{Channel, ReferenceCycles, SensorCycles};
///
/// let (sensor, reference) = (SensorCycles(10_000), ReferenceCycles(2_847_876));
/// let channel = Channel { sensor, reference };
/// assert_eq!(channel.sensor.0, 10_000);
/// ```
///
/// ```compile_fail,E0308
/// use bjorkneve::{Channel, ReferenceCycles, SensorCycles};
///
/// let (sensor, reference) = (SensorCycles(10_000), ReferenceCycles(2_847_876));
/// let channel = Channel { sensor: reference, reference: sensor };
/// ```
#[repr(C)]
#[derive(Debug, Clone, Copy, PartialEq, Eq)]
pub struct SensorCycles(pub u64);

/// How many cycles of the 7.2 MHz reference were counted meanwhile.
///
/// ```
/// let reference = bjorkneve::ReferenceCycles(2_847_876);
/// assert_eq!(7_200_000 * 10_000 / reference.0, 25_281);
/// ```
#[repr(C)]
#[derive(Debug, Clone, Copy, PartialEq, Eq)]
pub struct ReferenceCycles(pub u64);

/// The counts of one sensor.
///
/// ```
/// use bjorkneve::{Channel, ReferenceCycles, SensorCycles};
///
/// let channel = Channel {
///     sensor: SensorCycles(10_000),
///     reference: ReferenceCycles(2_847_876),
/// };
/// assert_eq!(channel.reference, ReferenceCycles(2_847_876));
/// ```
#[repr(C)]
#[derive(Debug, Clone, Copy, PartialEq, Eq)]
pub struct Channel {
    /// The sensor's own cycles.
    pub sensor: SensorCycles,
    /// The reference's cycles.
    pub reference: ReferenceCycles,
}

/// The counts of both sensors.
///
/// ```
/// use bjorkneve::{Channel, Counts, ReferenceCycles, SensorCycles};
///
/// let counts = Counts {
///     pressure: Channel {
///         sensor: SensorCycles(10_000),
///         reference: ReferenceCycles(2_847_876),
///     },
///     temperature: Channel {
///         sensor: SensorCycles(10_000),
///         reference: ReferenceCycles(1_352_875),
///     },
/// };
/// assert_ne!(counts.pressure, counts.temperature);
/// ```
#[repr(C)]
#[derive(Debug, Clone, Copy, PartialEq, Eq)]
pub struct Counts {
    /// The pressure sensor's.
    pub pressure: Channel,
    /// The temperature sensor's.
    pub temperature: Channel,
}
