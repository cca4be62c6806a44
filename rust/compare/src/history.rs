//! What happens to a panel from power-on to power-on: loads whole and by
//! lines, good, bad and broken off, and readings between.

use crate::counts::Cycles;
use crate::images::image;
use crate::pieces::{disturb, lines};
use crate::random::Random;
use crate::readings::case;
use crate::texts::{room, text_of};
use reference::{Channel, Counts, ReferenceCycles, SensorCycles};

pub enum Event {
    /// Power comes back. The buffer holds these bytes, or what was left in it.
    PowerOn {
        level: u32,
        bytes: Option<Vec<u8>>,
        kept: usize,
    },
    Load(Vec<u8>),
    Begin,
    Line(Vec<u8>),
    End,
    Reading(Counts),
}

pub struct History {
    /// The bytes of the lent buffer.
    pub size: usize,
    /// The first is a power-on.
    pub events: Vec<Event>,
}

struct Gauge {
    image: Vec<u8>,
    level: u32,
    counts: Counts,
}

/// A history of any sort, with the texts of two gauges.
pub fn history(random: &mut Random) -> History {
    let gauges = [gauge(random), gauge(random)];
    let longest = gauges.iter().map(|gauge| gauge.image.len()).max();
    let size = match random.below(20) {
        0 => random.below(4_201),
        _ => room(longest.unwrap_or(0), random),
    };
    let level = level(&gauges, random);
    let mut events = vec![Event::PowerOn {
        level,
        bytes: None,
        kept: 0,
    }];
    for _ in 0..random.between(1, 4) {
        let gauge = &gauges[random.below(2)];
        match random.below(20) {
            0..=5 => events.push(Event::Load(text(gauge, random))),
            6..=15 => by_lines(gauge, &mut events, random),
            16 => events.push(random.pick(&[|| Event::Begin, || Event::End])()),
            17 => events.push(Event::Line(b":00000001FF\n".to_vec())),
            _ => events.push(power_on(gauge, level, random)),
        }
        // of the gauge that was meant, and sometimes of the other
        events.push(Event::Reading(gauge.counts));
        if random.chance(20) {
            events.push(Event::Reading(gauges[random.below(2)].counts));
        }
    }
    History { size, events }
}

/// Counts of both channels.
pub fn counts(pressure: Cycles, temperature: Cycles) -> Counts {
    let channel = |(sensor, reference)| Channel {
        sensor: SensorCycles(sensor),
        reference: ReferenceCycles(reference),
    };
    Counts {
        pressure: channel(pressure),
        temperature: channel(temperature),
    }
}

fn gauge(random: &mut Random) -> Gauge {
    let case = case(random);
    Gauge {
        image: match random.below(8) {
            0 => image(random),
            _ => case.image,
        },
        level: case.level,
        counts: counts(case.pressure, case.temperature),
    }
}

fn level(gauges: &[Gauge], random: &mut Random) -> u32 {
    match random.below(20) {
        0 => random.pick(&[0, 3, 4, 257]),
        1 => random.pick(&[1, 2]),
        _ => gauges[random.below(gauges.len())].level,
    }
}

fn text(gauge: &Gauge, random: &mut Random) -> Vec<u8> {
    text_of(&gauge.image, 20, random).bytes
}

/// A load by lines; sometimes its begin or its end is missing, and sometimes
/// a reading is asked for before its end.
fn by_lines(gauge: &Gauge, events: &mut Vec<Event>, random: &mut Random) {
    let mut pieces = lines(&text(gauge, random));
    if random.chance(35) {
        for _ in 0..random.pick(&[1, 1, 2]) {
            disturb(&mut pieces, random);
        }
    }
    if !random.chance(4) {
        events.push(Event::Begin);
    }
    let asked = random.below(2 * pieces.len() + 1);
    for (at, piece) in pieces.into_iter().enumerate() {
        if at == asked {
            events.push(Event::Reading(gauge.counts));
        }
        events.push(Event::Line(piece));
    }
    if !random.chance(8) {
        events.push(Event::End);
    }
    if random.chance(4) {
        events.push(random
            .pick(&[|| Event::End, || Event::Line(b":\n".to_vec())])(
        ));
    }
}

/// Power comes back over an image that was kept, or over what a load left.
fn power_on(gauge: &Gauge, level: u32, random: &mut Random) -> Event {
    let length = gauge.image.len();
    let bytes = if random.chance(70) {
        let mut bytes = gauge.image.clone();
        if random.chance(20) && length > 0 {
            bytes[random.below(length)] ^= 1 << random.below(8);
        }
        Some(bytes)
    } else {
        None
    };
    let kept = match random.below(10) {
        0 => 0,
        1 => length.saturating_sub(1),
        2 => random.pick(&[length + 1, 4_096, 4_097, usize::MAX]),
        _ => length,
    };
    let level = match random.below(10) {
        0 => random.pick(&[0, 1, 2, 3, 4, 257]),
        _ => level,
    };
    Event::PowerOn { level, bytes, kept }
}
