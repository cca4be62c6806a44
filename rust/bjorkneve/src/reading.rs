use crate::{card, raw, Counts, Level, Refusal};
use core::fmt;

/// What a pressure is shown in.
///
/// ```
/// use bjorkneve::Unit;
///
/// assert_eq!([Unit::Psi, Unit::Bar, Unit::Kpa].map(u8::from), [1, 2, 3]);
/// assert_eq!(Unit::Kpa.to_string(), "kPa");
/// ```
#[repr(u8)]
#[derive(Debug, Clone, Copy, PartialEq, Eq)]
pub enum Unit {
    /// psi, also where there is no trim.
    Psi = card::UNIT_PSI,
    /// bar.
    Bar = card::UNIT_BAR,
    /// kPa.
    Kpa = card::UNIT_KPA,
}

impl Unit {
    /// The unit that a trim names by this number; nothing for any other.
    ///
    /// ```
    /// use bjorkneve::Unit;
    ///
    /// assert_eq!([0, 1, 2, 3, 4].map(Unit::of), [None, Some(Unit::Psi), Some(Unit::Bar), Some(Unit::Kpa), None]);
    /// ```
    #[inline]
    #[must_use]
    pub fn of(number: u8) -> Option<Self> {
        Some(match number {
            card::UNIT_PSI => Unit::Psi,
            card::UNIT_BAR => Unit::Bar,
            card::UNIT_KPA => Unit::Kpa,
            _ => return None,
        })
    }
}

impl From<Unit> for u8 {
    #[inline]
    fn from(unit: Unit) -> Self {
        unit as Self
    }
}

impl fmt::Display for Unit {
    fn fmt(&self, f: &mut fmt::Formatter<'_>) -> fmt::Result {
        f.pad(match self {
            Unit::Psi => "psi",
            Unit::Bar => "bar",
            Unit::Kpa => "kPa",
        })
    }
}

/// Whether a reading lies outside the limits that the image states for its
/// gauge, as a number: 1 for the temperature plus 2 for the pressure. A marked
/// reading is worked out as any other, and must not be relied on until counts,
/// file and gauge were checked.
///
/// ```
/// use bjorkneve::{Channel, Counts, Level, Mark, ReferenceCycles, SensorCycles};
///
/// # let text = include_bytes!(concat!(env!("CARGO_MANIFEST_DIR"), "/../../examples/typical.hex"));
/// # let mut buffer = [0; bjorkneve::LARGEST_IMAGE];
/// # let image = bjorkneve::load(text, Level::Two, &mut buffer)?;
/// let channel = |reference| Channel {
///     sensor: SensorCycles(10_000),
///     reference: ReferenceCycles(reference),
/// };
/// // of a gauge for 25 to 175 °C and 12 to 20,000 psi, -10 psi and 61 °C
/// let counts = Counts {
///     pressure: channel(3_280_000),
///     temperature: channel(1_355_000),
/// };
/// assert_eq!(bjorkneve::reading(image, Level::Two, counts)?.mark, Mark(2));
/// # Ok::<(), bjorkneve::Refusal>(())
/// ```
#[derive(Debug, Clone, Copy, PartialEq, Eq)]
pub struct Mark(pub u8);

impl Mark {
    /// The temperature lies outside.
    ///
    /// ```
    /// use bjorkneve::Mark;
    ///
    /// assert_eq!([0, 1, 2, 3].map(|mark| Mark(mark).temperature_outside()), [false, true, false, true]);
    /// ```
    #[inline]
    #[must_use]
    pub fn temperature_outside(self) -> bool {
        self.0 & card::MARK_TEMPERATURE != 0
    }

    /// The pressure lies outside, in psi and before trim.
    ///
    /// ```
    /// use bjorkneve::Mark;
    ///
    /// assert_eq!([0, 1, 2, 3].map(|mark| Mark(mark).pressure_outside()), [false, false, true, true]);
    /// ```
    #[inline]
    #[must_use]
    pub fn pressure_outside(self) -> bool {
        self.0 & card::MARK_PRESSURE != 0
    }
}

/// What a panel shows.
///
/// ```
/// use bjorkneve::{Channel, Counts, Level, ReferenceCycles, SensorCycles};
///
/// # let text = include_bytes!(concat!(env!("CARGO_MANIFEST_DIR"), "/../../examples/trimmed.hex"));
/// # let mut buffer = [0; bjorkneve::LARGEST_IMAGE];
/// # let image = bjorkneve::load(text, Level::Two, &mut buffer)?;
/// # let channel = |reference| Channel { sensor: SensorCycles(10_000), reference: ReferenceCycles(reference) };
/// # let counts = Counts { pressure: channel(2_847_876), temperature: channel(1_352_875) };
/// let reading = bjorkneve::reading(image, Level::Two, counts)?;
/// let (pressure, temperature) = (reading.pressure as f64 / 65_536.0, reading.temperature as f64 / 65_536.0);
/// let shown = format!("{:.3} {} {:.3} °C", pressure, reading.unit, temperature);
/// assert_eq!(shown, "206.108 bar 60.418 °C");
/// # Ok::<(), bjorkneve::Refusal>(())
/// ```
#[derive(Debug, Clone, Copy, PartialEq, Eq)]
pub struct Reading {
    /// In 1/65,536 of the unit.
    pub pressure: i64,
    /// In 1/65,536 °C.
    pub temperature: i64,
    /// What the pressure is shown in.
    pub unit: Unit,
    /// What lies outside the gauge's limits.
    pub mark: Mark,
}

/// The reading of an image at a level for the counts of both sensors. The
/// image is judged anew (numbers 5 to 13, 15, 16, then 21 to 26).
///
/// ```
/// use bjorkneve::{Channel, Counts, Level, ReferenceCycles, SensorCycles, Unit};
///
/// # let text = include_bytes!(concat!(env!("CARGO_MANIFEST_DIR"), "/../../examples/typical.hex"));
/// # let mut buffer = [0; bjorkneve::LARGEST_IMAGE];
/// # let image = bjorkneve::load(text, Level::Two, &mut buffer)?;
/// let counts = Counts {
///     pressure: Channel {
///         sensor: SensorCycles(10_000),
///         reference: ReferenceCycles(2_847_876),
///     },
///     temperature: Channel {
///         sensor: SensorCycles(10_000),
///         reference: ReferenceCycles(1_352_875),
///     },
/// };
/// let reading = bjorkneve::reading(image, Level::Two, counts)?;
/// assert_eq!((reading.pressure >> 16, reading.unit), (2_989, Unit::Psi));
/// # Ok::<(), bjorkneve::Refusal>(())
/// ```
#[inline]
pub fn reading(image: &[u8], level: Level, counts: Counts) -> Result<Reading, Refusal> {
    raw::reading(image, level.into(), counts).answer()
}
