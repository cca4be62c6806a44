//! One call made of both sides, with everything that can be checked of it.

use crate::lent::Lent;
use crate::random::Random;
use crate::tally::Answer;
use bjorkneve::{raw, Level};
use std::fmt;
use std::ops::Range;

/// Bytes as they are shown where a case fails.
struct Hex<'a>(&'a [u8]);

impl fmt::Display for Hex<'_> {
    fn fmt(&self, f: &mut fmt::Formatter<'_>) -> fmt::Result {
        self.0.iter().try_for_each(|byte| write!(f, "{byte:02X}"))
    }
}

/// The lent buffers of the three calls: the archive's, the safe door's and
/// the reference's. Their dirt differs, so dirt left behind is a difference.
#[derive(Default)]
pub struct Both {
    archive: Lent,
    door: Lent,
    reference: Lent,
}

impl Both {
    /// Reads a text into a buffer of this size.
    pub fn read(&mut self, text: &[u8], size: usize, random: &mut Random) -> Answer<usize> {
        self.fill(
            format_args!("text {}", Hex(text)),
            size,
            random,
            |image| raw::read(text, image),
            |image| bjorkneve::read(text, image),
            |image| reference::read(text, image),
        )
    }

    /// Writes an image into a buffer of this size.
    pub fn write(&mut self, image: &[u8], size: usize, random: &mut Random) -> Answer<usize> {
        self.fill(
            format_args!("image {}", Hex(image)),
            size,
            random,
            |text| raw::write(image, text),
            |text| bjorkneve::write(image, text),
            |text| reference::write(image, text),
        )
    }

    /// Loads a text at a level into a buffer of this size.
    pub fn load(
        &mut self,
        text: &[u8],
        level: u32,
        size: usize,
        random: &mut Random,
    ) -> Answer<usize> {
        self.fill(
            format_args!("level {level} text {}", Hex(text)),
            size,
            random,
            |image| raw::load(text, level, image),
            // the door has no other levels than the two
            |image| match Level::try_from(level) {
                Ok(level) => bjorkneve::load(text, level, image),
                Err(_) => raw::load(text, level, image).part(image),
            },
            |image| reference::load(text, level, image),
        )
    }

    /// Builds an image in a buffer of this size.
    pub fn build(
        &mut self,
        kinds: &[u32],
        lengths: &[usize],
        bodies: &[u8],
        size: usize,
        random: &mut Random,
    ) -> Answer<usize> {
        let wide: Vec<u64> = lengths.iter().map(|length| *length as u64).collect();
        self.fill(
            format_args!("kinds {kinds:?} lengths {lengths:?} bodies {}", Hex(bodies)),
            size,
            random,
            |image| raw::build(kinds, &wide, bodies, image),
            |image| bjorkneve::build(kinds, lengths, bodies, image),
            |image| reference::build(kinds, lengths, bodies, image),
        )
    }

    /// The buffer all three left behind.
    pub fn part(&self) -> &[u8] {
        self.archive.part()
    }

    fn fill(
        &mut self,
        given: fmt::Arguments<'_>,
        size: usize,
        random: &mut Random,
        archive: impl FnOnce(&mut [u8]) -> raw::BjorkneveFilled,
        door: impl FnOnce(&mut [u8]) -> Result<&[u8], bjorkneve::Refusal>,
        reference: impl FnOnce(&mut [u8]) -> Result<usize, reference::Refusal>,
    ) -> Answer<usize> {
        let dirt = random.byte() | 1;
        let told = archive(self.archive.lend(size, dirt));
        let lent = self.door.lend(size, dirt ^ 0x42);
        let start = lent.as_ptr();
        let part = door(lent).map_err(ours_refusal);
        let ours = part.map(|part| {
            assert_eq!(part.as_ptr(), start, "a part from elsewhere");
            part.len()
        });
        let theirs = reference(self.reference.lend(size, dirt ^ 0x84)).map_err(their_refusal);

        assert_eq!(ours, theirs, "ours, the reference's: size {size} {given}");
        let numbers = (told.number, told.detail, told.length);
        match ours {
            Ok(length) => assert_eq!(numbers, (0, 0, length as u64)),
            Err((number, detail)) => assert_eq!(numbers, (number, detail, 0)),
        }
        let length = ours.unwrap_or(0);
        self.archive.check(length);
        self.door.check(length);
        self.reference.check(length);
        assert!(
            self.archive.part() == self.reference.part(),
            "content: size {size} {given}"
        );
        assert!(
            self.door.part() == self.reference.part(),
            "content: size {size} {given}"
        );
        ours
    }
}

/// Judges a layout.
pub fn layout(image: &[u8]) -> Answer<()> {
    judged(
        format_args!("image {}", Hex(image)),
        raw::layout(image),
        bjorkneve::layout(image),
        reference::layout(image),
    )
}

/// Judges an image at a level.
pub fn verdict(image: &[u8], level: u32) -> Answer<()> {
    judged(
        format_args!("level {level} image {}", Hex(image)),
        raw::verdict(image, level),
        Level::try_from(level).and_then(|level| bjorkneve::verdict(image, level)),
        reference::verdict(image, level),
    )
}

/// Finds a body.
pub fn find(image: &[u8], kind: u32) -> Option<Range<usize>> {
    let told = raw::find(image, kind);
    let ours = bjorkneve::place(image, kind);
    let theirs = reference::find(image, kind);
    assert_eq!(
        ours,
        theirs,
        "ours, the reference's: kind {kind} image {}",
        Hex(image)
    );
    assert_eq!(told.range(), ours);
    assert_eq!(told.there, ours.is_some());
    let body = bjorkneve::find(image, kind);
    match &ours {
        Some(range) => assert_eq!(body, Some(&image[range.clone()])),
        None => {
            assert_eq!((told.offset, told.length), (0, 0), "no, but a place");
            assert_eq!(body, None);
        }
    }
    ours
}

/// Takes a reading.
pub fn reading(image: &[u8], level: u32, counts: reference::Counts) -> Answer<reference::Reading> {
    let told = our_reading(raw::reading(image, level, our_counts(counts)));
    let ours = Level::try_from(level)
        .and_then(|level| bjorkneve::reading(image, level, our_counts(counts)))
        .map(as_reference)
        .map_err(ours_refusal);
    let theirs = reference::reading(image, level, counts).map_err(their_refusal);
    assert_eq!(
        ours,
        theirs,
        "ours, the reference's: level {level} {counts:?} image {}",
        Hex(image)
    );
    assert_eq!(told, ours);
    ours
}

/// Counts as the archive takes them.
pub fn our_counts(counts: reference::Counts) -> bjorkneve::Counts {
    let channel = |counts: reference::Channel| bjorkneve::Channel {
        sensor: bjorkneve::SensorCycles(counts.sensor.0),
        reference: bjorkneve::ReferenceCycles(counts.reference.0),
    };
    bjorkneve::Counts {
        pressure: channel(counts.pressure),
        temperature: channel(counts.temperature),
    }
}

/// A reading of the archive, every number of it looked at.
pub fn our_reading(told: raw::BjorkneveAnswer) -> Answer<reference::Reading> {
    let reading = reference::Reading {
        pressure: told.pressure,
        temperature: told.temperature,
        unit: told.unit,
        mark: told.mark,
    };
    if told.number == 0 {
        assert_eq!(told.detail, 0);
        return Ok(reading);
    }
    let values = (told.pressure, told.temperature, told.unit, told.mark);
    assert_eq!(values, (0, 0, 0, 0), "a refusal with a value");
    Err((told.number, told.detail))
}

/// A reading of the door as the reference has it.
pub fn as_reference(reading: bjorkneve::Reading) -> reference::Reading {
    reference::Reading {
        pressure: reading.pressure,
        temperature: reading.temperature,
        unit: reading.unit.into(),
        mark: reading.mark.0,
    }
}

fn judged(
    given: fmt::Arguments<'_>,
    told: raw::BjorkneveVerdict,
    ours: Result<(), bjorkneve::Refusal>,
    theirs: Result<(), reference::Refusal>,
) -> Answer<()> {
    let ours = ours.map_err(ours_refusal);
    let theirs = theirs.map_err(their_refusal);
    assert_eq!(ours, theirs, "ours, the reference's: {given}");
    assert_eq!((told.number, told.detail), ours.err().unwrap_or((0, 0)));
    ours
}

/// A refusal of the archive or the door, which the fault card has words for.
pub fn ours_refusal(refusal: bjorkneve::Refusal) -> (u32, u64) {
    assert!(refusal.what_happened().is_some(), "no words: {refusal}");
    (refusal.number, refusal.detail)
}

/// A refusal of the reference.
pub fn their_refusal(refusal: reference::Refusal) -> (u32, u64) {
    (refusal.number, refusal.detail)
}
