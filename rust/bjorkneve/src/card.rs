//! The fault card's rows: each number, its name and its words stand here once.
//! docs/NUMBERS.md is printed from them by the program's `card`.

use crate::fault_card::{Detail, Named, Row, Table};

/// Tables of refusals, a row each: number and name, what happened as its short
/// form and the rest, the detail, what to do.
macro_rules! tables {
    ($($heading:literal { $($number:literal $name:ident: $short:literal $rest:literal; $detail:expr; $to_do:expr;)* })*) => {
        pub mod refused {
            $($(
                #[doc = concat!($short, ".")]
                pub const $name: u32 = $number;
            )*)*
        }

        pub const TABLES: &[Table] = &[$(Table {
            heading: $heading,
            rows: &[$(Row {
                number: $number,
                name: stringify!($name),
                what_happened: concat!($short, $rest),
                detail: $detail,
                what_to_do: $to_do,
            }),*],
        }),*];

        // By a match each and not from TABLES, so that firmware which shows what happened doesn't carry the other words.
        pub fn what_happened(number: u32) -> Option<&'static str> {
            Some(match number {
                $($($number => concat!($short, $rest),)*)*
                _ => return None,
            })
        }

        pub fn detail(number: u32) -> Option<Detail> {
            Some(match number {
                $($($number => $detail,)*)*
                _ => return None,
            })
        }

        pub fn what_to_do(number: u32) -> Option<&'static str> {
            Some(match number {
                $($($number => $to_do,)*)*
                _ => return None,
            })
        }
    };
}

/// Limits, levels, units and the bits of a mark: name, type, value, what it is.
macro_rules! named {
    ($($name:ident: $type:ty = $value:literal, $what_it_is:literal;)*) => {
        $(pub const $name: $type = $value;)*

        pub const NAMED: &[Named] = &[$(Named {
            name: stringify!($name),
            value: $value,
            what_it_is: $what_it_is,
        }),*];
    };
}

const CHANNEL: Detail = Detail::OneOf(&[(1, "pressure channel"), (2, "temperature channel")]);
const SET: Detail = Detail::OneOf(&[(2, "pressure set"), (3, "temperature set")]);

/// The last sentence of what to do where a gauge's counts give no reading.
macro_rules! perhaps_faulty {
    () => {
        " If all that is right, the gauge may be faulty: don't use it."
    };
}

const FETCH_AGAIN: &str =
    "Load this file into no panel: a refused load clears what the panel had. \
    Fetch it again from where it came, as a file and not by copy and paste. \
    If the same fault comes again, ask the supplier for a new file. Never change a file.";
const NEW_FILE: &str = "Ask the supplier for a new file.";
const PERHAPS_ANOTHER_GAUGE: &str = concat!(
    "It may be another gauge's file: compare its serial number, which `bjorkneve words` tells, with the one on the gauge. \
    Or the two channels have traded places.",
    perhaps_faulty!()
);

tables! {
"While a text is loaded" {
    1 NOT_A_RECORD:
        "A line isn't a HEX record"
        ": it has characters too many, too few or wrong ones, or no line end (LF or CR LF). \
        Or the end record is missing, or something follows it.";
        Detail::Is("the line, from 1; where the text stops too early or goes on too long, the line after the last good one");
        FETCH_AGAIN;
    2 CHECKSUM:
        "A line and its checksum don't agree"
        ": the line was damaged on the way, or made wrong.";
        Detail::Is("the line");
        FETCH_AGAIN;
    3 RECORD_NOT_TAKEN:
        "A record of a type, an address or a size that this reader doesn't take"
        ".";
        Detail::Is("the line");
        "Ask the supplier for a file of plain records: type 00 from address 0 on without a gap, 1 to 255 bytes each, then type 01.";
    4 TOO_LARGE:
        "The image in the text has more than 4,096 bytes, or more than the panel has lent for it"
        ". Or `bjorkneve` was given a text of more than 65,536 bytes.";
        Detail::Is("the line of the first record too many; 0 from the writer, and for a text that is too long");
        "See whether it is the right file. If it is, ask the supplier. \
        If `bjorkneve words` takes it and a panel doesn't, tell the panel's maker.";
}
"While an image is judged" {
    5 NOT_AN_IMAGE:
        "Not a calibration image"
        ": its first byte isn't hexadecimal 51, or it has fewer than 2 or more than 4,096 bytes. \
        A panel without an image says this as well.";
        Detail::Zero;
        "If a file is refused by this, it is the wrong one: ask the supplier for the right one. \
        If a panel shows it without a load, load a good file.";
    6 CONTENTS_COUNT:
        "The number of contents lines is 0 or above 16, or they don't fit in the image"
        ".";
        Detail::Zero;
        NEW_FILE;
    7 CONTENTS_LINE:
        "A contents line is wrong"
        ": kinds don't rise from 1 on, its second byte isn't 0, or its offset isn't where the body before, \
        or for the first line the contents, ends. A panel says this too where it takes the buffer's size for the image's length.";
        Detail::Is("the contents line, from 0; the number of lines if only the end of the image is wrong");
        "Ask the supplier for a new file; name the contents line. \
        If `bjorkneve words` takes it and a panel doesn't, tell the panel's maker.";
    8 BODY_SUM:
        "A body's bytes don't add up to the sum in its contents line"
        ": the image was damaged, or made wrong.";
        Detail::Is("the contents line, from 0");
        NEW_FILE;
    9 UNKNOWN_KIND:
        "The image has a section that could change the reading and that a panel of this level doesn't know"
        ".";
        Detail::Is("the kind, the lowest if there are several");
        "Use a panel of a level that takes the file, as `bjorkneve words` tells. \
        If none does, ask the supplier which panel it is for. Nobody may take the section out.";
    10 MISSING_KIND:
        "A section that every image must have is missing"
        ".";
        Detail::OneOf(&[(1, "identity"), (2, "pressure set"), (3, "temperature set")]);
        "Ask the supplier for a new file with this section.";
    11 IDENTITY:
        "The identity is wrong"
        ": size, date, or a minimum above its maximum.";
        Detail::Zero;
        NEW_FILE;
    12 PRESSURE_SET:
        "The pressure set is wrong"
        ": size, algorithm, order, multiplier, offset or a coefficient out of its limits.";
        Detail::Zero;
        NEW_FILE;
    13 TEMPERATURE_SET:
        "The temperature set is wrong"
        ": size, algorithm, order, multiplier, offset or a coefficient out of its limits.";
        Detail::Zero;
        NEW_FILE;
    15 TRIM:
        "The trim is wrong"
        ": size, unit, a field that must be 0, span or zero out of its limits. Level 2 only.";
        Detail::Zero;
        "Have the trim made again.";
    16 NOTE:
        "The note is wrong"
        ": empty, above 64 characters, or with other characters than those numbered 32 to 126 (no umlauts, no line ends). Level 2 only.";
        Detail::Zero;
        "Have the note made again.";
    20 NO_SUCH_LEVEL:
        "A level was asked for that there isn't"
        ".";
        Detail::Zero;
        "A fault of the panel's own program: tell its maker.";
}
"While an image or a text is made" {
    17 NO_ROOM:
        "The buffer for the text or the image is too short"
        ".";
        Detail::Zero;
        "Lend a longer one: 11,276 bytes are enough for any text, 4,096 for any image.";
    18 BUILDER_LINES:
        "There is no contents line or more than 16, or the kinds don't rise strictly from 1 to 255"
        "; or kinds and lengths aren't equally many.";
        Detail::Zero;
        "Put the lines in order, each kind once.";
    19 BUILDER_LENGTHS:
        "The lengths don't add up to the bodies given, or the image would have more than 4,096 bytes"
        ".";
        Detail::Zero;
        "Correct the lengths, or leave something out.";
}
"While a reading is taken" {
    21 SENSOR_CYCLES:
        "The number of sensor cycles is 0 or above 1,048,576"
        ".";
        CHANNEL;
        concat!("Check how the counter is set, and that the two counts haven't traded places; then cable and plug.", perhaps_faulty!());
    22 REFERENCE_CYCLES:
        "The number of reference cycles is 0"
        ".";
        CHANNEL;
        "Check the panel: it doesn't count the reference clock.";
    23 FREQUENCY:
        "The frequency lies outside 10,000 to 100,000 Hz"
        ".";
        CHANNEL;
        concat!("Check cable and plug, and that the two counts haven't traded places.", perhaps_faulty!());
    24 FAR_FROM_CALIBRATION:
        "A frequency lies too far from the one at which this gauge was calibrated"
        ".";
        Detail::OneOf(&[
            (1, "pressure frequency in the pressure set"),
            (2, "temperature frequency in the pressure set"),
            (3, "pressure frequency in the temperature set"),
            (4, "temperature frequency in the temperature set"),
        ]);
        PERHAPS_ANOTHER_GAUGE;
    25 SUM_TOO_LARGE:
        "A sum on the way is larger than the panel works with"
        ".";
        SET;
        PERHAPS_ANOTHER_GAUGE;
    26 RESULT_TOO_LARGE:
        "The pressure or the temperature is larger than can be shown"
        ": beyond 32,768 psi or °C either side of 0.";
        SET;
        PERHAPS_ANOTHER_GAUGE;
}
}

named! {
    LARGEST_IMAGE: usize = 4_096, "bytes of the largest image";
    LONGEST_WRITTEN_TEXT: usize = 11_276, "bytes of the longest text that is written of an image";
    LONGEST_LINE: usize = 523, "bytes of the longest line of a text that can be good, with CR and LF";
    LONGEST_SHOWN_TEXT: usize = 65_536, "bytes of the longest text that the show program takes";
    LEVEL_1: u32 = 1, "a panel that knows identity, pressure set and temperature set";
    LEVEL_2: u32 = 2, "a panel that also knows trim and note";
    UNIT_PSI: u8 = 1, "pressure in psi";
    UNIT_BAR: u8 = 2, "pressure in bar";
    UNIT_KPA: u8 = 3, "pressure in kPa";
    MARK_TEMPERATURE: u8 = 1, "the mark's bit for a temperature outside the gauge's limits";
    MARK_PRESSURE: u8 = 2, "the mark's bit for a pressure outside them";
}
