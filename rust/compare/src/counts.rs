//! Counts of a channel, aimed at every limit and at exact halves.

use crate::random::Random;

const REFERENCE: u64 = 7_200_000 * 65_536;

/// Sensor and reference cycles.
pub type Cycles = (u64, u64);

/// Counts of any sort; most give a frequency.
pub fn cycles(random: &mut Random) -> Cycles {
    match random.below(100) {
        0..=39 => at_frequency(random.between(655_360_000, 6_553_600_000), random),
        40..=69 => half(random),
        70..=77 => at_limit(random),
        78..=94 => at_frequency(random.pick(&[2_359_296_000, 2_600_000_000]), random),
        95..=96 => {
            let sensor = random.pick(&[0, 1, 1_048_575, 1_048_576, 1_048_577, u64::MAX, 1 << 63]);
            let reference = random.pick(&[0, 1, 72, 720, 209_715_200, u64::MAX]);
            (sensor, reference)
        }
        97 => (random.between(1, 1_048_576) as u64, 0),
        98 => (random.number(), random.number()),
        _ => {
            // The two counts changed places.
            let (sensor, reference) = at_frequency(2_359_296_000, random);
            (reference, sensor)
        }
    }
}

/// Counts that give about this frequency.
fn at_frequency(frequency: i64, random: &mut Random) -> Cycles {
    let sensor = match random.below(6) {
        0 => random.pick(&[1, 2, 1_048_575, 1_048_576]),
        _ => random.between(1, 1_048_576) as u64,
    };
    let reference = (REFERENCE * sensor / frequency as u64).max(1);
    (sensor, reference)
}

/// Counts about the lowest or highest frequency there may be.
fn at_limit(random: &mut Random) -> Cycles {
    let frequency = random.pick(&[655_360_000, 6_553_600_000]);
    let (sensor, reference) = at_frequency(frequency, random);
    let reference = reference as i64 + random.between(-1, 2);
    (sensor, reference.max(1) as u64)
}

/// Counts whose frequency is a whole number and an exact half. The reference
/// frequency is 28,125 times 2^24, so one factor 2 more must stay below.
fn half(random: &mut Random) -> Cycles {
    loop {
        let twos = random.between(0, 4);
        let divisor = random.pick(&[1, 1, 3, 5, 9, 15, 25]);
        let sensor = random.odd(1_048_576 >> twos) << twos;
        let reference = divisor << (25 + twos);
        let frequency = i128::from(REFERENCE) * i128::from(sensor) / i128::from(reference);
        if (655_360_000..6_553_600_000).contains(&frequency) {
            return (sensor as u64, reference as u64);
        }
    }
}
