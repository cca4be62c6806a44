//! Cases of a reading: an image, a level, counts, and what the definition
//! makes of them.

use crate::aim::{fill, prescale, reach, target, tower};
use crate::bodies::{identity, note, trim, Limits};
use crate::counts::{cycles, Cycles};
use crate::damage::damage;
use crate::exact::{frequency, result, scaled, trimmed, Halves};
use crate::images::spoil;
use crate::random::Random;
use crate::sections::Sections;
use crate::sets::{random_orders, Set};
use crate::LEVELS;

pub struct Case {
    pub image: Vec<u8>,
    pub level: u32,
    pub pressure: Cycles,
    pub temperature: Cycles,
    /// Nothing where the image was spoiled: then only the two are compared.
    pub expected: Option<Expected>,
}

/// The definition's values, right for an accepted reading.
pub struct Expected {
    pub pressure: i128,
    pub temperature: i128,
    pub unit: u8,
    pub mark: u8,
    /// Halves of the frequencies, of the scaled frequencies, of the sums and
    /// of the trim.
    pub halves: [Halves; 4],
}

/// A case of any sort; most give a reading.
pub fn case(random: &mut Random) -> Case {
    let (pressure, temperature) = (cycles(random), cycles(random));
    let mut halves = [Halves::default(); 4];
    let mut frequency_of = |(sensor, reference): Cycles| {
        if sensor > 1_048_576 || reference == 0 {
            return 0;
        }
        frequency(sensor, reference, &mut halves[0])
    };
    let frequencies = [frequency_of(pressure), frequency_of(temperature)];

    let limits = narrow_limits(random);
    let pressure_set = aimed_set(frequencies, [limits[2], limits[3]], random);
    let temperature_set = aimed_set(frequencies, [limits[0], limits[1]], random);
    let psi = definition(&pressure_set, frequencies, &mut halves);
    let celsius = definition(&temperature_set, frequencies, &mut halves);
    let mut expected = Expected {
        pressure: psi,
        temperature: celsius,
        unit: 1,
        mark: u8::from(outside(celsius, limits[0], limits[1]))
            + 2 * u8::from(outside(psi, limits[2], limits[3])),
        halves,
    };

    let mut sections = Sections(vec![
        (1, identity(limits, random)),
        (2, pressure_set.body()),
        (3, temperature_set.body()),
    ]);
    let mut level = random.pick(&[1, 2]);
    if random.chance(60) {
        let (unit, span, zero) = aimed_trim(psi, random);
        sections.0.push((4, trim(unit, span, zero)));
        expected.pressure = trimmed(span, zero, psi, &mut expected.halves[3]);
        expected.unit = unit;
        // At level 1 a trim is unknown.
        level = random.pick(&[2, 2, 2, 2, 2, 2, 2, 1]);
    }
    if random.chance(30) {
        sections.0.push((129, note(random)));
    }
    if random.chance(20) {
        let length = random.below(40);
        sections.0.push((200, random.bytes(length)));
    }
    if random.chance(3) {
        level = random.pick(&LEVELS);
    }
    let spoiled = random.chance(10);
    if spoiled && random.chance(10) {
        let missing = random.below(3);
        sections.0.remove(missing);
    }
    if spoiled && random.chance(80) {
        spoil(&mut sections, random);
    }
    let mut image = sections.image();
    if spoiled && random.chance(40) {
        damage(&mut image, random);
    }
    Case {
        image,
        level,
        pressure,
        temperature,
        expected: if spoiled { None } else { Some(expected) },
    }
}

/// Limits within the range of a result, most times.
fn narrow_limits(random: &mut Random) -> Limits {
    let mut limits = [0; 4];
    for pair in limits.chunks_exact_mut(2) {
        let bits = random.pick(&[4, 15, 15, 16, 30]);
        let (one, other) = (random.signed(bits) as i32, random.signed(bits) as i32);
        pair[0] = one.min(other);
        pair[1] = one.max(other);
    }
    limits
}

fn aimed_set(frequencies: [i128; 2], limits: [i32; 2], random: &mut Random) -> Set {
    if random.chance(2) {
        return tower(frequencies, random);
    }
    let mut set = random_orders(4, random);
    if set.pressure_order > 0 {
        set.pressure = prescale(frequencies[0], random);
    }
    if set.temperature_order > 0 {
        set.temperature = prescale(frequencies[1], random);
    }
    fill(&mut set, random);
    if !random.chance(15) {
        let [pressure, temperature] = both_scaled(&set, frequencies, &mut Halves::default());
        // An X beyond its limit is refused before any sum.
        if pressure.abs() <= 1 << 24 && temperature.abs() <= 1 << 24 {
            reach(&mut set, pressure, temperature, target(limits, random));
        }
    }
    set
}

fn definition(set: &Set, frequencies: [i128; 2], halves: &mut [Halves; 4]) -> i128 {
    let [pressure, temperature] = both_scaled(set, frequencies, &mut halves[1]);
    // Far beyond the limit the sums would outgrow even these numbers.
    let near = |scaled: i128| scaled.clamp(-(1 << 25), 1 << 25);
    result(set, near(pressure), near(temperature), &mut halves[2])
}

fn both_scaled(set: &Set, frequencies: [i128; 2], halves: &mut Halves) -> [i128; 2] {
    let [pressure, temperature] = frequencies;
    [
        scaled(set.pressure_order, set.pressure, pressure, halves),
        scaled(set.temperature_order, set.temperature, temperature, halves),
    ]
}

fn outside(value: i128, lowest: i32, highest: i32) -> bool {
    value < i128::from(lowest) * 65_536 || value > i128::from(highest) * 65_536
}

/// Unit, span and zero; half the time the span makes an exact half of this
/// pressure.
fn aimed_trim(pressure: i128, random: &mut Random) -> (u8, u32, i64) {
    let unit = random.between(1, 3) as u8;
    let twos = pressure.trailing_zeros();
    let span = if pressure != 0 && twos <= 27 && random.chance(50) {
        let missing = 27 - twos;
        random.odd(1 << (31 - missing)) << missing
    } else {
        match random.below(5) {
            0 => random.pick(&[1, 2, (1 << 31) - 1, 1 << 31, 18_507_980]),
            _ => random.between(1, 1 << 31),
        }
    };
    let zero = match random.below(4) {
        0 => 0,
        1 => random.pick(&[-(1 << 40), 1 << 40]),
        _ => random.signed(40),
    };
    (unit, span as u32, zero)
}
