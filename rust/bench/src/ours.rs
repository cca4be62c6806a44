//! The archive's calls, each as `theirs` makes the reference's.

use crate::inputs::{Inputs, Text};
use crate::opaque::opaque;
use bjorkneve::{raw, Counts, Level, Reading, Refusal};

pub fn read(inputs: &Inputs, image: &mut [u8]) -> u64 {
    filled(bjorkneve::read(opaque(inputs.text), image))
}

pub fn load(inputs: &Inputs, image: &mut [u8]) -> u64 {
    load_whole(&inputs.load_16, image)
}

pub fn load_lines(inputs: &Inputs, image: &mut [u8]) -> u64 {
    load_by_lines(inputs, &inputs.load_16, image)
}

pub fn load_typical(inputs: &Inputs, image: &mut [u8]) -> u64 {
    load_whole(&inputs.load_typical, image)
}

pub fn load_typical_lines(inputs: &Inputs, image: &mut [u8]) -> u64 {
    load_by_lines(inputs, &inputs.load_typical, image)
}

pub fn load_32(inputs: &Inputs, image: &mut [u8]) -> u64 {
    load_whole(&inputs.load_32, image)
}

pub fn load_32_lines(inputs: &Inputs, image: &mut [u8]) -> u64 {
    load_by_lines(inputs, &inputs.load_32, image)
}

pub fn load_8(inputs: &Inputs, image: &mut [u8]) -> u64 {
    load_whole(&inputs.load_8, image)
}

pub fn load_8_lines(inputs: &Inputs, image: &mut [u8]) -> u64 {
    load_by_lines(inputs, &inputs.load_8, image)
}

#[inline(always)]
fn load_whole(text: &Text, image: &mut [u8]) -> u64 {
    filled(bjorkneve::load(
        opaque(text.whole),
        opaque(Level::Two),
        image,
    ))
}

/// By the calls themselves: a `Panel` would be powered on for each buffer.
#[inline(always)]
fn load_by_lines(inputs: &Inputs, text: &Text, image: &mut [u8]) -> u64 {
    let mut panel = raw::panel_begin(opaque(inputs.our_panel), image);
    for line in opaque(&text.lines) {
        panel = raw::panel_line(panel, line, image);
    }
    let panel = raw::panel_end(panel, image);
    filled(raw::panel_status(panel).part(image))
}

pub fn write(inputs: &Inputs, text: &mut [u8]) -> u64 {
    filled(bjorkneve::write(opaque(&inputs.full), text))
}

pub fn build(inputs: &Inputs, image: &mut [u8]) -> u64 {
    let kinds = opaque(&inputs.kinds);
    let lengths = opaque(&inputs.lengths);
    filled(bjorkneve::build(
        kinds,
        lengths,
        opaque(&inputs.bodies),
        image,
    ))
}

pub fn layout(inputs: &Inputs, _: &mut [u8]) -> u64 {
    judged(bjorkneve::layout(opaque(&inputs.full)))
}

pub fn verdict_typical(inputs: &Inputs, _: &mut [u8]) -> u64 {
    judged(bjorkneve::verdict(
        opaque(&inputs.typical),
        opaque(Level::One),
    ))
}

pub fn verdict_large(inputs: &Inputs, _: &mut [u8]) -> u64 {
    judged(bjorkneve::verdict(
        opaque(&inputs.large),
        opaque(Level::Two),
    ))
}

pub fn reading_typical(inputs: &Inputs, _: &mut [u8]) -> u64 {
    let counts: Counts = opaque(inputs.our_counts);
    shown(bjorkneve::reading(
        opaque(&inputs.typical),
        opaque(Level::One),
        counts,
    ))
}

pub fn reading_large(inputs: &Inputs, _: &mut [u8]) -> u64 {
    let counts: Counts = opaque(inputs.our_counts);
    shown(bjorkneve::reading(
        opaque(&inputs.large),
        opaque(Level::Two),
        counts,
    ))
}

fn filled(answer: Result<&[u8], Refusal>) -> u64 {
    match answer {
        Ok(part) => part.len() as u64,
        Err(refusal) => panic!("{:?}", refusal),
    }
}

fn judged(answer: Result<(), Refusal>) -> u64 {
    match answer {
        Ok(()) => 1,
        Err(refusal) => panic!("{:?}", refusal),
    }
}

fn shown(answer: Result<Reading, Refusal>) -> u64 {
    match answer {
        Ok(reading) => reading.pressure as u64,
        Err(refusal) => panic!("{:?}", refusal),
    }
}
