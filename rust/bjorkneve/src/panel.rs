use crate::raw::{self, BjorknevePanel};
use crate::{Counts, Gauge, Level, Loading, Reading, Refusal};

/// A panel with the buffer that was lent for its image. Its lamp is green
/// exactly while the last load that began has ended accepted, and there is a
/// reading only while it is green.
///
/// ```
/// use bjorkneve::{refused, Channel, Counts, Level, Panel, ReferenceCycles, SensorCycles};
///
/// # let good = include_bytes!(concat!(env!("CARGO_MANIFEST_DIR"), "/../../examples/typical.hex"));
/// # let damaged = include_bytes!(concat!(env!("CARGO_MANIFEST_DIR"), "/../../examples/damaged.hex"));
/// # let channel = |reference| Channel { sensor: SensorCycles(10_000), reference: ReferenceCycles(reference) };
/// # let counts = Counts { pressure: channel(2_847_876), temperature: channel(1_352_875) };
/// let mut buffer = [0; bjorkneve::LARGEST_IMAGE];
/// let mut panel = Panel::power_on(Level::Two, &mut buffer, 0);
/// panel.load(good)?;
/// assert_eq!(panel.reading(counts)?.pressure >> 16, 2_989);
///
/// // after a refused load there is nothing to read by
/// assert_eq!(panel.load(damaged).unwrap_err().number, refused::CHECKSUM);
/// assert!(!panel.is_lit());
/// assert_eq!(panel.reading(counts).unwrap_err().number, refused::NOT_AN_IMAGE);
/// # Ok::<(), bjorkneve::Refusal>(())
/// ```
///
/// Nobody else can change the image while the panel has it:
///
/// ```compile_fail,E0506
/// use bjorkneve::{Level, Panel};
///
/// let mut buffer = [0; bjorkneve::LARGEST_IMAGE];
/// let panel = Panel::power_on(Level::Two, &mut buffer, 0);
/// buffer[0] = 0x51;
/// assert!(!panel.is_lit());
/// ```
#[derive(Debug)]
pub struct Panel<'image> {
    level: Level,
    pub(crate) state: BjorknevePanel,
    pub(crate) buffer: &'image mut [u8],
}

impl<'image> Panel<'image> {
    /// A panel of this level at power-on. The buffer's first `kept` bytes are
    /// what was kept of an accepted image, 0 where nothing was; they are judged
    /// as a loaded image is. Where they are refused, the buffer is all zeros.
    ///
    /// ```
    /// use bjorkneve::{Level, Panel};
    ///
    /// # let text = include_bytes!(concat!(env!("CARGO_MANIFEST_DIR"), "/../../examples/typical.hex"));
    /// let mut buffer = [0; bjorkneve::LARGEST_IMAGE];
    /// let mut panel = Panel::power_on(Level::Two, &mut buffer, 0);
    /// assert!(!panel.is_lit());
    /// let kept = panel.load(text)?.len();
    ///
    /// let panel = Panel::power_on(Level::Two, &mut buffer, kept);
    /// assert!(panel.is_lit());
    ///
    /// buffer[100] ^= 1;
    /// let panel = Panel::power_on(Level::Two, &mut buffer, kept);
    /// assert!(!panel.is_lit());
    /// assert_eq!(buffer, [0; bjorkneve::LARGEST_IMAGE]);
    /// # Ok::<(), bjorkneve::Refusal>(())
    /// ```
    #[inline]
    #[must_use]
    pub fn power_on(level: Level, buffer: &'image mut [u8], kept: usize) -> Self {
        let state = raw::panel_power_on(level.into(), buffer, kept as u64);
        Self {
            level,
            state,
            buffer,
        }
    }

    /// Loads a whole text, as [`load`](crate::load) does: the accepted image,
    /// or a refusal and no image.
    ///
    /// ```
    /// use bjorkneve::{refused, Level, Panel};
    ///
    /// # let text = include_bytes!(concat!(env!("CARGO_MANIFEST_DIR"), "/../../examples/trimmed.hex"));
    /// let mut buffer = [0; bjorkneve::LARGEST_IMAGE];
    /// let mut panel = Panel::power_on(Level::One, &mut buffer, 0);
    /// let refusal = panel.load(text).unwrap_err();
    /// assert_eq!((refusal.number, refusal.detail), (refused::UNKNOWN_KIND, 4));
    /// ```
    #[inline]
    pub fn load(&mut self, text: &[u8]) -> Result<&[u8], Refusal> {
        self.state = raw::panel_load(self.state, text, self.buffer);
        self.image()
    }

    /// Begins a load by lines. The image of the load before is gone, and the
    /// lamp is out until [`Loading::end`] accepts.
    ///
    /// ```
    /// use bjorkneve::{Level, Panel};
    ///
    /// # let text = include_bytes!(concat!(env!("CARGO_MANIFEST_DIR"), "/../../examples/typical.hex"));
    /// let mut buffer = [0; bjorkneve::LARGEST_IMAGE];
    /// let mut panel = Panel::power_on(Level::Two, &mut buffer, 0);
    /// let mut loading = panel.begin();
    /// for line in text.split_inclusive(|byte| *byte == b'\n') {
    ///     loading.line(line);
    /// }
    /// loading.end()?;
    /// assert!(panel.is_lit());
    /// # Ok::<(), bjorkneve::Refusal>(())
    /// ```
    #[inline]
    pub fn begin(&mut self) -> Loading<'_, 'image> {
        self.state = raw::panel_begin(self.state, self.buffer);
        Loading { panel: self }
    }

    /// Whether the lamp is green.
    ///
    /// ```
    /// use bjorkneve::{Level, Panel};
    ///
    /// # let text = include_bytes!(concat!(env!("CARGO_MANIFEST_DIR"), "/../../examples/typical.hex"));
    /// let mut buffer = [0; bjorkneve::LARGEST_IMAGE];
    /// let mut panel = Panel::power_on(Level::Two, &mut buffer, 0);
    /// assert!(!panel.is_lit());
    /// panel.load(text)?;
    /// assert!(panel.is_lit());
    /// # Ok::<(), bjorkneve::Refusal>(())
    /// ```
    #[inline]
    #[must_use]
    pub fn is_lit(&self) -> bool {
        raw::panel_status(self.state).lamp
    }

    /// The image of the last load or of power-on, a part of the lent buffer,
    /// or what it was refused by; 5 where a load has not ended.
    ///
    /// ```
    /// use bjorkneve::{refused, Level, Panel};
    ///
    /// # let text = include_bytes!(concat!(env!("CARGO_MANIFEST_DIR"), "/../../examples/damaged.hex"));
    /// let mut buffer = [0; bjorkneve::LARGEST_IMAGE];
    /// let mut panel = Panel::power_on(Level::Two, &mut buffer, 0);
    /// assert_eq!(panel.image().unwrap_err().number, refused::NOT_AN_IMAGE);
    /// let refusal = panel.load(text).unwrap_err();
    /// assert_eq!(panel.image(), Err(refusal));
    /// ```
    #[inline]
    pub fn image(&self) -> Result<&[u8], Refusal> {
        raw::panel_status(self.state).part(self.buffer)
    }

    /// A reading by the panel's image, which is judged anew. Refused as by
    /// [`reading`](crate::reading); 5 where the lamp is not green.
    ///
    /// ```
    /// use bjorkneve::{Channel, Counts, Level, Panel, ReferenceCycles, SensorCycles, Unit};
    ///
    /// # let text = include_bytes!(concat!(env!("CARGO_MANIFEST_DIR"), "/../../examples/typical.hex"));
    /// # let mut buffer = [0; bjorkneve::LARGEST_IMAGE];
    /// # let mut panel = Panel::power_on(Level::Two, &mut buffer, 0);
    /// # panel.load(text)?;
    /// let counts = Counts {
    ///     pressure: Channel {
    ///         sensor: SensorCycles(10_000),
    ///         reference: ReferenceCycles(2_847_876),
    ///     },
    ///     temperature: Channel {
    ///         sensor: SensorCycles(10_000),
    ///         reference: ReferenceCycles(1_352_875),
    ///     },
    /// };
    /// let reading = panel.reading(counts)?;
    /// assert_eq!((reading.pressure >> 16, reading.unit), (2_989, Unit::Psi));
    /// # Ok::<(), bjorkneve::Refusal>(())
    /// ```
    #[inline]
    pub fn reading(&self, counts: Counts) -> Result<Reading, Refusal> {
        raw::panel_reading(self.state, self.buffer, counts).answer()
    }

    /// The gauge of the panel's image, which is judged anew. Refused as by
    /// [`verdict`](crate::verdict); 5 where the lamp is not green.
    ///
    /// ```
    /// use bjorkneve::{refused, Level, Panel};
    ///
    /// # let text = include_bytes!(concat!(env!("CARGO_MANIFEST_DIR"), "/../../examples/typical.hex"));
    /// let mut buffer = [0; bjorkneve::LARGEST_IMAGE];
    /// let mut panel = Panel::power_on(Level::Two, &mut buffer, 0);
    /// assert_eq!(panel.gauge().unwrap_err().number, refused::NOT_AN_IMAGE);
    /// panel.load(text)?;
    /// assert_eq!(panel.gauge()?.serial, 157_879);
    /// # Ok::<(), bjorkneve::Refusal>(())
    /// ```
    #[inline]
    pub fn gauge(&self) -> Result<Gauge, Refusal> {
        raw::panel_gauge(self.state, self.buffer).answer()
    }

    /// The level that the panel has.
    ///
    /// ```
    /// use bjorkneve::{Level, Panel};
    ///
    /// assert_eq!(Panel::power_on(Level::One, &mut [], 0).level(), Level::One);
    /// ```
    #[inline]
    #[must_use]
    pub fn level(&self) -> Level {
        self.level
    }
}
