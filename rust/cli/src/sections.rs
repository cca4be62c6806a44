//! The sections of an image: kind, name and size.

use std::io::{self, Write};

pub const IDENTITY: u8 = 1;
pub const PRESSURE_SET: u8 = 2;
pub const TEMPERATURE_SET: u8 = 3;
pub const TRIM: u8 = 4;
pub const NOTE: u8 = 129;

/// Document 01: a kind below this may change a reading.
const FIRST_WITHOUT_EFFECT: u8 = 128;

/// A kind's name, or what holds of an unknown one.
pub fn name(kind: u8) -> &'static str {
    match kind {
        IDENTITY => "identity",
        PRESSURE_SET => "pressure set",
        TEMPERATURE_SET => "temperature set",
        TRIM => "trim",
        NOTE => "note",
        _ if kind < FIRST_WITHOUT_EFFECT => "unknown; by its number it may change a reading",
        _ => "unknown; by its number it never changes a reading",
    }
}

/// A list of the sections of an image whose layout is good.
pub fn list(out: &mut impl Write, image: &[u8]) -> io::Result<()> {
    let sections: Vec<(u8, usize)> = (1..=u8::MAX)
        .filter_map(|kind| Some((kind, bjorkneve::find(image, kind.into())?.len())))
        .collect();
    let (size, many) = (image.len(), counted(sections.len(), "section"));
    writeln!(out, "    The image has {size} bytes and {many}:")?;
    for (kind, length) in sections {
        let (size, name) = (counted(length, "byte"), name(kind));
        writeln!(out, "        kind {kind}, {size}: {name}")?;
    }
    Ok(())
}

/// A number of things, as `1 byte` or `2 bytes`.
pub fn counted(number: usize, thing: &str) -> String {
    let ending = if number == 1 { "" } else { "s" };
    format!("{number} {thing}{ending}")
}
