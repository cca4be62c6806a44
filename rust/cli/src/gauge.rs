//! What an image that a panel has accepted says of its gauge.

use crate::sections::{IDENTITY, NOTE, PRESSURE_SET, TEMPERATURE_SET, TRIM};
use crate::trim::Trim;
use bjorkneve::{Level, Refusal, Unit};
use std::io::{self, Write};

/// The identity, the orders, and what the level knows beyond them.
pub struct Gauge {
    pub serial: u32,
    pub year: u16,
    pub month: u8,
    pub day: u8,
    pub temperature_limits: [i32; 2],
    pub pressure_limits: [i32; 2],
    pub pressure_set: Orders,
    pub temperature_set: Orders,
    pub trim: Option<Trim>,
    pub note: Option<String>,
}

/// The orders of a set.
pub struct Orders {
    pub pressure: u8,
    pub temperature: u8,
}

const COMPARE: &str = "compare the serial number with the one on the gauge, and see whether the date is recent enough for you. \
    Whether the gauge itself is good, no file can say.";

impl Gauge {
    /// The gauge of an image, once a panel of this level has accepted it: every
    /// field is then there and right.
    pub fn accepted(image: &[u8], level: Level) -> Result<Self, Refusal> {
        bjorkneve::verdict(image, level)?;
        let body = |kind: u8| bjorkneve::find(image, kind.into());
        let must = |kind| body(kind).expect("an accepted image has this section");
        let identity = must(IDENTITY);
        let limit = |at| i32::from_le_bytes(field(identity, at));
        let knows_trim_and_note = level != Level::One;
        Ok(Gauge {
            serial: u32::from_le_bytes(field(identity, 0)),
            year: u16::from_le_bytes(field(identity, 4)),
            month: identity[6],
            day: identity[7],
            temperature_limits: [limit(8), limit(12)],
            pressure_limits: [limit(16), limit(20)],
            pressure_set: Orders::of(must(PRESSURE_SET)),
            temperature_set: Orders::of(must(TEMPERATURE_SET)),
            trim: body(TRIM).filter(|_| knows_trim_and_note).map(Trim::of),
            note: body(NOTE)
                .filter(|_| knows_trim_and_note)
                .map(|note| String::from_utf8_lossy(note).into_owned()),
        })
    }

    /// The date of calibration, as `show` prints it.
    pub fn date(&self) -> String {
        format!("{:04}-{:02}-{:02}", self.year, self.month, self.day)
    }

    /// What the file says, for whoever has the gauge at hand.
    pub fn tell(&self, out: &mut impl Write) -> io::Result<()> {
        let (serial, date) = (self.serial, self.date());
        writeln!(
            out,
            "It says that it is for the gauge with serial number {serial}, calibrated on {date}."
        )?;
        writeln!(
            out,
            "The gauge is calibrated for {} and {}.",
            self.pressure_limits(),
            self.temperature_limits()
        )?;
        if let Some(note) = &self.note {
            let note = note.replace('\\', "\\\\").replace('"', "\\\"");
            writeln!(
                out,
                "The supplier's note, not judged by this program: \"{note}\""
            )?;
        }
        writeln!(out, "What to do: {COMPARE}")
    }

    /// What is worked with, for an engineer.
    pub fn tell_engineer(&self, out: &mut impl Write) -> io::Result<()> {
        let (pressure_set, temperature_set) = (&self.pressure_set, &self.temperature_set);
        writeln!(out, "    The pressure set has {}.", pressure_set.in_words())?;
        writeln!(
            out,
            "    The temperature set has {}.",
            temperature_set.in_words()
        )?;
        match &self.trim {
            Some(trim) => trim.tell(out),
            None => writeln!(
                out,
                "    The pressure is shown in {}, without a trim.",
                Unit::Psi
            ),
        }
    }

    pub fn pressure_limits(&self) -> String {
        let [least, most] = self.pressure_limits;
        format!("{least} to {most} psi")
    }

    pub fn temperature_limits(&self) -> String {
        let [least, most] = self.temperature_limits;
        format!("{least} to {most} °C")
    }
}

impl Orders {
    fn of(set: &[u8]) -> Self {
        Orders {
            pressure: set[2],
            temperature: set[3],
        }
    }

    fn in_words(&self) -> String {
        format!(
            "order {} in pressure and order {} in temperature",
            self.pressure, self.temperature
        )
    }
}

pub fn field<const N: usize>(body: &[u8], at: usize) -> [u8; N] {
    let bytes = body.get(at..at + N).and_then(|bytes| bytes.try_into().ok());
    bytes.expect("an accepted body has this field")
}
