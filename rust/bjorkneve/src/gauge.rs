/// The gauge that an image is for.
///
/// ```
/// use bjorkneve::{Level, Panel};
///
/// # let text = include_bytes!(concat!(env!("CARGO_MANIFEST_DIR"), "/../../examples/typical.hex"));
/// let mut buffer = [0; bjorkneve::LARGEST_IMAGE];
/// let mut panel = Panel::power_on(Level::Two, &mut buffer, 0);
/// panel.load(text)?;
/// let gauge = panel.gauge()?;
/// let told = format!("{} {}-{:02}-{:02}", gauge.serial, gauge.year, gauge.month, gauge.day);
/// assert_eq!(told, "157879 2003-09-08");
/// # Ok::<(), bjorkneve::Refusal>(())
/// ```
#[derive(Debug, Clone, Copy, PartialEq, Eq)]
pub struct Gauge {
    /// Its serial number.
    pub serial: u32,
    /// The year of its calibration.
    pub year: u16,
    /// The month, 1 to 12.
    pub month: u8,
    /// The day, from 1.
    pub day: u8,
}
