//! The reference's calls, each as `ours` makes the archive's.

use crate::inputs::{Inputs, Text};
use crate::opaque::opaque;
use reference::{Counts, Reading, Refusal};

pub fn read(inputs: &Inputs, image: &mut [u8]) -> u64 {
    filled(reference::read(opaque(inputs.text), image))
}

pub fn load(inputs: &Inputs, image: &mut [u8]) -> u64 {
    load_whole(&inputs.load_16, image)
}

pub fn load_lines(inputs: &Inputs, image: &mut [u8]) -> u64 {
    load_by_lines(inputs, &inputs.load_16, image)
}

pub fn load_typical(inputs: &Inputs, image: &mut [u8]) -> u64 {
    load_whole(&inputs.load_typical, image)
}

pub fn load_typical_lines(inputs: &Inputs, image: &mut [u8]) -> u64 {
    load_by_lines(inputs, &inputs.load_typical, image)
}

#[inline(always)]
fn load_whole(text: &Text, image: &mut [u8]) -> u64 {
    filled(reference::load(opaque(text.whole), opaque(2), image))
}

#[inline(always)]
fn load_by_lines(inputs: &Inputs, text: &Text, image: &mut [u8]) -> u64 {
    let mut panel = opaque(inputs.reference_panel);
    panel.begin(image);
    for line in opaque(&text.lines) {
        panel.line(line, image);
    }
    panel.end(image);
    match panel.answer() {
        Some(answer) => filled(answer),
        None => panic!("the load is under way"),
    }
}

pub fn write(inputs: &Inputs, text: &mut [u8]) -> u64 {
    filled(reference::write(opaque(&inputs.full), text))
}

pub fn build(inputs: &Inputs, image: &mut [u8]) -> u64 {
    let kinds = opaque(&inputs.kinds);
    let lengths = opaque(&inputs.lengths);
    filled(reference::build(
        kinds,
        lengths,
        opaque(&inputs.bodies),
        image,
    ))
}

pub fn layout(inputs: &Inputs, _: &mut [u8]) -> u64 {
    judged(reference::layout(opaque(&inputs.full)))
}

pub fn verdict_typical(inputs: &Inputs, _: &mut [u8]) -> u64 {
    judged(reference::verdict(opaque(&inputs.typical), opaque(1)))
}

pub fn verdict_large(inputs: &Inputs, _: &mut [u8]) -> u64 {
    judged(reference::verdict(opaque(&inputs.large), opaque(2)))
}

pub fn reading_typical(inputs: &Inputs, _: &mut [u8]) -> u64 {
    let counts: Counts = opaque(inputs.reference_counts);
    shown(reference::reading(
        opaque(&inputs.typical),
        opaque(1),
        counts,
    ))
}

pub fn reading_large(inputs: &Inputs, _: &mut [u8]) -> u64 {
    let counts: Counts = opaque(inputs.reference_counts);
    shown(reference::reading(opaque(&inputs.large), opaque(2), counts))
}

fn filled(answer: Result<usize, Refusal>) -> u64 {
    match answer {
        Ok(length) => length as u64,
        Err(refusal) => panic!("{:?}", refusal),
    }
}

fn judged(answer: Result<(), Refusal>) -> u64 {
    match answer {
        Ok(()) => 1,
        Err(refusal) => panic!("{:?}", refusal),
    }
}

fn shown(answer: Result<Reading, Refusal>) -> u64 {
    match answer {
        Ok(reading) => reading.pressure as u64,
        Err(refusal) => panic!("{:?}", refusal),
    }
}
