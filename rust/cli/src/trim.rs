//! The trim of an accepted image, and what it makes of a pressure.

use crate::decimal::{decimal, measured};
use crate::gauge::field;
use bjorkneve::Unit;
use std::io::{self, Write};

/// What a pressure in psi is multiplied by, in 1/2^28, and what is added to it,
/// in 1/65,536 of the unit.
pub struct Trim {
    pub unit: Unit,
    pub span: u32,
    pub zero: i64,
}

/// A span of 2 to this power leaves the pressure as it is.
const SPAN_BITS: u32 = 28;

impl Trim {
    pub fn of(trim: &[u8]) -> Self {
        Trim {
            unit: Unit::of(trim[0]).expect("an accepted trim has a unit"),
            span: u32::from_le_bytes(field(trim, 4)),
            zero: i64::from_le_bytes(field(trim, 8)),
        }
    }

    /// What a pressure in 1/65,536 psi, at most 2^31 either side of 0, is shown as in 1/65,536 of the unit: rounded to nearest, halves upward.
    pub fn shown_as(&self, pressure: i64) -> i64 {
        let half = 1 << (SPAN_BITS - 1);
        self.zero + ((i64::from(self.span) * pressure + half) >> SPAN_BITS)
    }

    pub fn tell(&self, out: &mut impl Write) -> io::Result<()> {
        let (unit, span, zero) = (self.unit, self.span, self.zero);
        writeln!(
            out,
            "    The pressure is shown in {unit}, by the trim: zero + span × the pressure in psi,"
        )?;
        writeln!(
            out,
            "        span {span} / 2^{SPAN_BITS} = {},",
            decimal(span.into(), SPAN_BITS, 9)
        )?;
        writeln!(
            out,
            "        zero {zero} / 65536 = {} {unit}.",
            measured(zero)
        )?;
        let [none, thousand] = [0, 1000].map(|psi| measured(self.shown_as(psi * 65_536)));
        writeln!(
            out,
            "    So 0 psi is shown as {none} {unit}, and 1000 psi as {thousand} {unit}."
        )
    }
}
