use crate::{raw, Panel, Refusal};

/// A load by lines that is under way. It has the panel for itself, so that no
/// reading can be asked for before its end:
///
/// ```
/// use bjorkneve::{Level, Panel};
///
/// # let text = include_bytes!(concat!(env!("CARGO_MANIFEST_DIR"), "/../../examples/typical.hex"));
/// let mut buffer = [0; bjorkneve::LARGEST_IMAGE];
/// let mut panel = Panel::power_on(Level::Two, &mut buffer, 0);
/// let mut loading = panel.begin();
/// for line in text.split_inclusive(|byte| *byte == b'\n') {
///     loading.line(line);
/// }
/// let image = loading.end()?;
/// assert_eq!(image[0], 0x51);
/// assert_eq!(panel.gauge()?.serial, 157_879);
/// # Ok::<(), bjorkneve::Refusal>(())
/// ```
///
/// ```compile_fail,E0502
/// # use bjorkneve::{Channel, Counts, ReferenceCycles, SensorCycles};
/// use bjorkneve::{Level, Panel};
///
/// # let channel = Channel { sensor: SensorCycles(10_000), reference: ReferenceCycles(2_847_876) };
/// # let counts = Counts { pressure: channel, temperature: channel };
/// let mut buffer = [0; bjorkneve::LARGEST_IMAGE];
/// let mut panel = Panel::power_on(Level::Two, &mut buffer, 0);
/// let mut loading = panel.begin();
/// let reading = panel.reading(counts);
/// loading.line(b":00000001FF\n");
/// ```
///
/// Where it is dropped, or forgotten, before its end, the panel has no image
/// until another load is accepted:
///
/// ```
/// use bjorkneve::{refused, Level, Panel};
///
/// # let text = include_bytes!(concat!(env!("CARGO_MANIFEST_DIR"), "/../../examples/typical.hex"));
/// let mut buffer = [0; bjorkneve::LARGEST_IMAGE];
/// let mut panel = Panel::power_on(Level::Two, &mut buffer, 0);
/// panel.load(text)?;
/// drop(panel.begin());
/// assert!(!panel.is_lit());
/// assert_eq!(panel.gauge().unwrap_err().number, refused::NOT_AN_IMAGE);
/// # Ok::<(), bjorkneve::Refusal>(())
/// ```
#[derive(Debug)]
#[must_use = "a load that doesn't end leaves the panel without an image"]
pub struct Loading<'panel, 'image> {
    pub(crate) panel: &'panel mut Panel<'image>,
}

impl<'panel, 'image> Loading<'panel, 'image> {
    /// Takes the text's next line with its line end. The last may lack it, and
    /// is then refused. After a fault further lines change nothing.
    ///
    /// ```
    /// use bjorkneve::{Level, Panel};
    ///
    /// let mut buffer = [0; bjorkneve::LARGEST_IMAGE];
    /// let mut panel = Panel::power_on(Level::Two, &mut buffer, 0);
    /// let mut loading = panel.begin();
    /// loading.line(b":020000005101AC\r\n");
    /// loading.line(b":00000001FF\r\n");
    /// assert_eq!(loading.refusal(), None);
    /// ```
    #[inline]
    pub fn line(&mut self, line: &[u8]) {
        self.panel.state = raw::panel_line(self.panel.state, line, self.panel.buffer);
    }

    /// The fault that was found in the lines so far. The end will be refused
    /// by it, so that the rest of the text need not be sent.
    ///
    /// ```
    /// use bjorkneve::{refused, Level, Panel};
    ///
    /// let mut buffer = [0; bjorkneve::LARGEST_IMAGE];
    /// let mut panel = Panel::power_on(Level::Two, &mut buffer, 0);
    /// let mut loading = panel.begin();
    /// loading.line(b":020000005101AD\n");
    /// let refusal = loading.refusal().unwrap();
    /// assert_eq!((refusal.number, refusal.detail), (refused::CHECKSUM, 1));
    /// assert_eq!(loading.end(), Err(refusal));
    /// ```
    #[inline]
    #[must_use]
    pub fn refusal(&self) -> Option<Refusal> {
        raw::panel_status(self.panel.state).refusal()
    }

    /// Ends the text and judges its image: the answer that
    /// [`Panel::load`] gives of the whole text.
    ///
    /// ```
    /// use bjorkneve::{refused, Level, Panel};
    ///
    /// let mut buffer = [0; bjorkneve::LARGEST_IMAGE];
    /// let mut panel = Panel::power_on(Level::Two, &mut buffer, 0);
    /// let mut loading = panel.begin();
    /// loading.line(b":020000005101AC\n");
    /// let refusal = loading.end().unwrap_err(); // the end record is missing
    /// assert_eq!((refusal.number, refusal.detail), (refused::NOT_A_RECORD, 2));
    /// ```
    #[inline]
    pub fn end(self) -> Result<&'panel [u8], Refusal> {
        let panel = self.panel;
        panel.state = raw::panel_end(panel.state, panel.buffer);
        panel.image()
    }
}

#[cfg(test)]
mod tests {
    use super::Loading;
    use crate::{refused, verdict, Channel, Counts, Level, Panel};
    use crate::{ReferenceCycles, Refusal, SensorCycles};
    use core::mem::forget;

    const TEXT: &[u8] = include_bytes!(concat!(
        env!("CARGO_MANIFEST_DIR"),
        "/../../examples/typical.hex"
    ));

    /// Leaves a load of a panel with an image after each number of lines.
    fn unfinished(leave: fn(Loading<'_, '_>)) {
        let channel = |reference| Channel {
            sensor: SensorCycles(10_000),
            reference: ReferenceCycles(reference),
        };
        let counts = Counts {
            pressure: channel(2_847_876),
            temperature: channel(1_352_875),
        };
        let lines = || TEXT.split_inclusive(|byte| *byte == b'\n');
        for taken in 0..=lines().count() {
            let mut buffer = [0xA5; crate::LARGEST_IMAGE];
            let mut panel = Panel::power_on(Level::Two, &mut buffer, 0);
            assert!(panel.load(TEXT).is_ok() && panel.reading(counts).is_ok());
            let mut loading = panel.begin();
            lines().take(taken).for_each(|line| loading.line(line));
            assert_eq!(loading.refusal(), None);
            leave(loading);

            let no_image = Refusal {
                number: refused::NOT_AN_IMAGE,
                detail: 0,
            };
            assert!(!panel.is_lit());
            assert_eq!(panel.image(), Err(no_image));
            assert_eq!(panel.reading(counts), Err(no_image));
            assert_eq!(panel.gauge(), Err(no_image));
            for level in [Level::One, Level::Two] {
                assert_eq!(verdict(panel.buffer, level), Err(no_image));
            }
            assert!(panel.load(TEXT).is_ok() && panel.reading(counts).is_ok());
        }
    }

    #[test]
    fn dropped() {
        unfinished(|loading| drop(loading));
    }

    // A `Loading` has nothing to do when it is dropped; that it needn't is what is tried.
    #[allow(clippy::forget_non_drop)]
    #[test]
    fn forgotten() {
        unfinished(|loading| forget(loading));
    }
}
