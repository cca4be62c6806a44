//! A panel of the archive and one of the reference, each with a buffer of its
//! own, taken through the same events.

use crate::both::{our_counts, our_reading, ours_refusal, their_refusal};
use crate::history::Event;
use crate::lent::Lent;
use crate::random::Random;
use crate::tally::Answer;
use bjorkneve::raw;
use reference::{Counts, Gauge, Reading};
use std::mem::transmute;

/// What a panel says after an event.
#[derive(Debug, Clone, PartialEq)]
pub struct Told {
    pub lit: bool,
    pub level: u8,
    /// The image's length; nothing while a load is under way.
    pub load: Option<Answer<usize>>,
    pub gauge: Answer<Gauge>,
    /// The reading that the event asked for.
    pub reading: Option<Answer<Reading>>,
}

/// The two panels and their buffers. What power-on finds beside the bytes that
/// were kept differs, so that what is left behind of it is a difference.
pub struct Panels {
    archive: raw::BjorknevePanel,
    archive_lent: Lent,
    reference: reference::Panel,
    reference_lent: Lent,
}

impl Panels {
    /// Two panels that were never powered on, with buffers of this size.
    pub fn new(size: usize, random: &mut Random) -> Self {
        let dirt = random.byte() | 1;
        let (mut archive_lent, mut reference_lent) = (Lent::default(), Lent::default());
        archive_lent.lend(size, dirt);
        reference_lent.lend(size, dirt ^ 0x84);
        Self {
            archive: raw::BjorknevePanel {
                lines_or_detail: 0,
                size_or_number: 0,
                level: 0,
                stage: 0,
                first: 0,
            },
            archive_lent,
            reference: reference::Panel::power_on(0, &mut [], 0),
            reference_lent,
        }
    }

    /// Two panels that their caller made of these bytes, with buffers that
    /// hold the same.
    pub fn made_up(bytes: [u8; 16], buffer: &[u8]) -> Self {
        // SAFETY: the struct is plain numbers, so any 16 bytes are one.
        let archive: raw::BjorknevePanel = unsafe { transmute(bytes) };
        let (mut archive_lent, mut reference_lent) = (Lent::default(), Lent::default());
        archive_lent.lend(buffer.len(), 0).copy_from_slice(buffer);
        reference_lent.lend(buffer.len(), 0).copy_from_slice(buffer);
        Self {
            archive,
            archive_lent,
            reference: reference::Panel::made_up(
                archive.lines_or_detail,
                archive.size_or_number,
                archive.level,
                archive.stage,
                archive.first,
            ),
            reference_lent,
        }
    }

    /// What both say after the event.
    pub fn after(&mut self, event: &Event) -> Told {
        let image = self.archive_lent.again();
        let panel = self.archive;
        let mut reading = None;
        self.archive = match event {
            Event::PowerOn { level, bytes, kept } => {
                put(bytes, image);
                raw::panel_power_on(*level, image, *kept as u64)
            }
            Event::Load(text) => raw::panel_load(panel, text, image),
            Event::Begin => raw::panel_begin(panel, image),
            Event::Line(line) => raw::panel_line(panel, line, image),
            Event::End => raw::panel_end(panel, image),
            Event::Reading(counts) => {
                reading = Some(*counts);
                panel
            }
        };
        let ours = archive_tells(self.archive, self.archive_lent.part(), reading);

        let image = self.reference_lent.again();
        match event {
            Event::PowerOn { level, bytes, kept } => {
                put(bytes, image);
                self.reference = reference::Panel::power_on(*level, image, *kept);
            }
            Event::Load(text) => self.reference.load(text, image),
            Event::Begin => self.reference.begin(image),
            Event::Line(line) => self.reference.line(line, image),
            Event::End => self.reference.end(image),
            Event::Reading(_) => {}
        }
        let theirs = reference_tells(&self.reference, self.reference_lent.part(), reading);

        assert_eq!(ours, theirs, "ours, the reference's");
        self.archive_lent.check_guards();
        assert!(
            self.archive_lent.part() == self.reference_lent.part(),
            "content of the buffer"
        );
        ours
    }

    /// The buffer that both left behind.
    pub fn part(&self) -> &[u8] {
        self.archive_lent.part()
    }
}

/// Puts bytes at the start of a buffer.
pub fn put(bytes: &Option<Vec<u8>>, buffer: &mut [u8]) {
    if let Some(bytes) = bytes {
        let length = bytes.len().min(buffer.len());
        buffer[..length].copy_from_slice(&bytes[..length]);
    }
}

/// What a panel of the archive says.
pub fn archive_tells(panel: raw::BjorknevePanel, image: &[u8], counts: Option<Counts>) -> Told {
    let status = raw::panel_status(panel);
    let gauge = raw::panel_gauge(panel, image);
    if gauge.number != 0 {
        let values = (gauge.serial, gauge.year, gauge.month, gauge.day);
        assert_eq!(values, (0, 0, 0, 0), "a refusal with a value");
    }
    let load = match (status.number, status.lamp) {
        (0, true) => Some(Ok(status.length as usize)),
        (0, false) => None,
        (number, _) => Some(Err((number, status.detail))),
    };
    assert!(status.lamp || status.length == 0, "a length without a lamp");
    assert!(status.number != 0 || status.detail == 0, "only a detail");
    Told {
        lit: status.lamp,
        level: status.level,
        load,
        gauge: gauge.answer().map(our_gauge).map_err(ours_refusal),
        reading: counts
            .map(|counts| our_reading(raw::panel_reading(panel, image, our_counts(counts)))),
    }
}

fn reference_tells(panel: &reference::Panel, image: &[u8], counts: Option<Counts>) -> Told {
    Told {
        lit: panel.is_lit(),
        level: panel.level(),
        load: panel.answer().map(|answer| answer.map_err(their_refusal)),
        gauge: panel.gauge(image).map_err(their_refusal),
        reading: counts.map(|counts| panel.reading(image, counts).map_err(their_refusal)),
    }
}

/// A gauge as the reference has it.
pub fn our_gauge(gauge: bjorkneve::Gauge) -> Gauge {
    Gauge {
        serial: gauge.serial,
        year: gauge.year,
        month: gauge.month,
        day: gauge.day,
    }
}
