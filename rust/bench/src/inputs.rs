//! The inputs of the measured calls.

use compare::bodies::{identity, note, trim};
use compare::random::Random;
use compare::records::Record;
use compare::sections::Sections;
use compare::sets::{Prescale, Set};
use compare::IMAGE_LIMIT;

/// Counts of 2,359,296,000 and 2,621,440,000 in 1/65,536 Hz.
const PRESSURE: (u64, u64) = (10_000, 2_000_000);
const TEMPERATURE: (u64, u64) = (10_000, 1_800_000);

/// A text and its lines, found beforehand.
pub struct Text {
    pub whole: &'static [u8],
    pub lines: Vec<&'static [u8]>,
}

impl Text {
    fn new(whole: &'static [u8]) -> Self {
        Self {
            whole,
            lines: whole.split_inclusive(|byte| *byte == b'\n').collect(),
        }
    }
}

pub struct Inputs {
    /// A text of the full image, as the writer makes it.
    pub text: &'static [u8],
    /// Sixteen sections, 4,096 bytes.
    pub full: Vec<u8>,
    /// What the full image is built from.
    pub kinds: Vec<u32>,
    pub lengths: Vec<usize>,
    pub bodies: Vec<u8>,
    /// Orders 3 3 and 0 3.
    pub typical: Vec<u8>,
    /// Orders 4 4 twice, trim and note.
    pub large: Vec<u8>,
    pub our_counts: bjorkneve::Counts,
    pub reference_counts: reference::Counts,
    /// Texts of another image of sixteen sections and 4,096 bytes, one that
    /// level 2 accepts, with so many data bytes in a record.
    pub load_16: Text,
    pub load_32: Text,
    pub load_8: Text,
    /// The text of examples/typical.hex.
    pub load_typical: Text,
    /// A panel of level 2 without an image.
    pub our_panel: bjorkneve::raw::BjorknevePanel,
    pub reference_panel: reference::Panel,
}

impl Inputs {
    pub fn new() -> Self {
        let mut random = Random::new(7);
        let sections = full(&mut random);
        let full = sections.image();
        let accepted = accepted(&mut Random::new(17)).image();
        Self {
            text: text(&full, 16),
            full,
            kinds: sections
                .0
                .iter()
                .map(|(kind, _)| u32::from(*kind))
                .collect(),
            lengths: sections.0.iter().map(|(_, body)| body.len()).collect(),
            bodies: sections
                .0
                .iter()
                .flat_map(|(_, body)| body.clone())
                .collect(),
            typical: typical(&mut random).image(),
            large: large(&mut random),
            our_counts: bjorkneve::Counts {
                pressure: bjorkneve::Channel {
                    sensor: bjorkneve::SensorCycles(PRESSURE.0),
                    reference: bjorkneve::ReferenceCycles(PRESSURE.1),
                },
                temperature: bjorkneve::Channel {
                    sensor: bjorkneve::SensorCycles(TEMPERATURE.0),
                    reference: bjorkneve::ReferenceCycles(TEMPERATURE.1),
                },
            },
            reference_counts: reference::Counts {
                pressure: reference::Channel {
                    sensor: reference::SensorCycles(PRESSURE.0),
                    reference: reference::ReferenceCycles(PRESSURE.1),
                },
                temperature: reference::Channel {
                    sensor: reference::SensorCycles(TEMPERATURE.0),
                    reference: reference::ReferenceCycles(TEMPERATURE.1),
                },
            },
            load_16: Text::new(text(&accepted, 16)),
            load_32: Text::new(text(&accepted, 32)),
            load_8: Text::new(text(&accepted, 8)),
            load_typical: Text::new(include_bytes!("../../../examples/typical.hex")),
            our_panel: bjorkneve::raw::panel_power_on(2, &mut [], 0),
            reference_panel: reference::Panel::power_on(2, &mut [], 0),
        }
    }
}

fn full(random: &mut Random) -> Sections {
    let head = 2 + 16 * 8;
    let length = (IMAGE_LIMIT - head) / 16;
    let mut sections = Sections::default();
    for kind in 1..=15 {
        sections.0.push((10 * kind, random.bytes(length)));
    }
    let rest = IMAGE_LIMIT - head - 15 * length;
    sections.0.push((160, random.bytes(rest)));
    sections
}

/// The typical sections, and 13 that change no reading.
fn accepted(random: &mut Random) -> Sections {
    let mut sections = typical(random);
    let rest = IMAGE_LIMIT - 13 * 8 - sections.length();
    for kind in 131..=142 {
        sections.0.push((kind, random.bytes(rest / 13)));
    }
    let last = rest - 12 * (rest / 13);
    sections.0.push((143, random.bytes(last)));
    sections
}

/// A text of the image with so many data bytes in a record. It is used to the
/// end of the program, and so never given back.
fn text(image: &[u8], data: usize) -> &'static [u8] {
    let mut records: Vec<Record> = image
        .chunks(data)
        .enumerate()
        .map(|(number, bytes)| Record::new(number * data, 0, bytes))
        .collect();
    records.push(Record::new(0, 1, &[]));
    Box::leak(compare::records::text(&records).into_boxed_slice())
}

fn typical(random: &mut Random) -> Sections {
    Sections(vec![
        (1, identity([-40, 125, 0, 16_000], random)),
        (2, set(3, 3, random).body()),
        (3, set(0, 3, random).body()),
    ])
}

fn large(random: &mut Random) -> Vec<u8> {
    Sections(vec![
        (1, identity([-40, 125, 0, 16_000], random)),
        (2, set(4, 4, random).body()),
        (3, set(4, 4, random).body()),
        (4, trim(2, 18_507_980, -65_536)),
        (129, note(random)),
    ])
    .image()
}

/// A set whose scaled frequencies lie within 1 and whose result is small.
fn set(pressure_order: u8, temperature_order: u8, random: &mut Random) -> Set {
    let mut set = Set::new(pressure_order, temperature_order);
    if pressure_order > 0 {
        set.pressure = Prescale {
            multiplier: 270_000_001,
            offset: 2_300_000_000,
        };
    }
    set.temperature = Prescale {
        multiplier: 123_456_789,
        offset: 2_700_000_000,
    };
    for coefficient in &mut set.coefficients {
        *coefficient = random.between(-(1 << 24), 1 << 24);
    }
    set
}
