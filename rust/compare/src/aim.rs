//! Prescales and coefficients aimed at limits and at exact halves.

use crate::exact::{result, Halves};
use crate::random::Random;
use crate::sets::{random_prescale, Prescale, Set};

/// A prescale of an order above 0 for this frequency; most give an X within 1.
pub fn prescale(frequency: i128, random: &mut Random) -> Prescale {
    for _ in 0..20 {
        let (multiplier, difference) = match random.below(20) {
            0..=4 => half(random),
            5..=7 => limit(random),
            8..=13 => coarse(random),
            14..=18 => within(random),
            _ => return random_prescale(random),
        };
        let offset = frequency - i128::from(difference);
        if (0..=6_553_600_000).contains(&offset) {
            return Prescale {
                multiplier: multiplier as u32,
                offset: offset as u64,
            };
        }
    }
    Prescale {
        multiplier: random.between(1, 1 << 20) as u32,
        offset: frequency.clamp(0, 6_553_600_000) as u64,
    }
}

/// Multiplier and difference whose product is an odd multiple of 2^31.
fn half(random: &mut Random) -> (i64, i64) {
    let twos = random.between(0, 30);
    let multiplier = random.odd(1 << (30 - twos)) << twos;
    // X is half the product of the two odd factors, and should stay within 1.
    let most = ((1_i64 << 25) / (multiplier >> twos)).max(1);
    let difference = random.odd(most.min(1 << 33)) << (31 - twos);
    (multiplier, signed(difference, random))
}

/// Multiplier and difference whose X is 2^24 either side, give or take half.
fn limit(random: &mut Random) -> (i64, i64) {
    let twos = random.between(24, 30);
    let half = 1 << (31 - twos);
    let near = random.pick(&[-half - 1, -half, -half + 1, 0, half - 1, half, half + 1]);
    (1 << twos, signed(1 << (56 - twos), random) + near)
}

/// Multiplier and difference whose X has few binary places, so that halves
/// are frequent in the sums.
fn coarse(random: &mut Random) -> (i64, i64) {
    let twos = random.between(24, 30);
    let quarters = random.pick(&[0, 1, 2, 2, 2, 3, 4]);
    (1 << twos, signed(quarters << (54 - twos), random))
}

/// Multiplier and difference of some X within 1.
fn within(random: &mut Random) -> (i64, i64) {
    let multiplier = random.between(1 << 16, 1 << 30);
    let scaled = random.between(-(1 << 24), 1 << 24);
    let difference = (i128::from(scaled) << 32) / i128::from(multiplier);
    (multiplier, difference as i64 + random.between(-2, 2))
}

fn signed(value: i64, random: &mut Random) -> i64 {
    if random.chance(50) {
        value
    } else {
        -value
    }
}

/// A set whose terms are as large as may be and all add up, for the largest
/// running sums there are; sometimes with the largest products before them.
pub fn tower(frequencies: [i128; 2], random: &mut Random) -> Set {
    let mut set = Set::new(4, 4);
    let mut signs = [1_i64; 2];
    let mut prescales = [Prescale::default(); 2];
    for (at, frequency) in frequencies.iter().enumerate() {
        signs[at] = random.pick(&[1, -1]);
        let offset = match random.below(4) {
            0 => random.pick(&[0, 6_553_600_000]),
            _ => frequency - (i128::from(signs[at]) << 26),
        };
        prescales[at] = Prescale {
            multiplier: 1 << 30,
            offset: offset.clamp(0, 6_553_600_000) as u64,
        };
    }
    set.pressure = prescales[0];
    set.temperature = prescales[1];
    let first = random.pick(&[1_i64 << 34, -(1 << 34)]);
    for (at, coefficient) in set.coefficients.iter_mut().enumerate() {
        let (row, column) = (at as u32 / 5, at as u32 % 5);
        *coefficient = first * signs[0].pow(row) * signs[1].pow(column);
    }
    set
}

/// Fills in coefficients, small enough most times for a result.
pub fn fill(set: &mut Set, random: &mut Random) {
    let bits = match random.below(20) {
        0 => 34,
        1..=3 => 31,
        4..=9 => 4,
        _ => 28,
    };
    for coefficient in &mut set.coefficients {
        *coefficient = random.signed(bits);
    }
}

/// Changes A0, which every result contains as it is, to reach a target.
pub fn reach(set: &mut Set, pressure: i128, temperature: i128, target: i64) {
    let now = result(set, pressure, temperature, &mut Halves::default());
    let first = i128::from(set.coefficients[0]) + i128::from(target) - now;
    set.coefficients[0] = first.clamp(-(1 << 34), 1 << 34) as i64;
}

/// A result worth having: about its limit, about a limit of the identity (in
/// whole units), with many factors 2, or any.
pub fn target(limits: [i32; 2], random: &mut Random) -> i64 {
    let near = random.between(-1, 1);
    match random.below(8) {
        0 => random.pick(&[-(1 << 31), 1 << 31]) + near,
        1..=3 => {
            let limit = i64::from(random.pick(&limits)) * 65_536;
            limit.clamp(-(1 << 31), 1 << 31) + near
        }
        4 | 5 => {
            let twos = random.between(0, 27);
            signed(random.odd(1 << (31 - twos)) << twos, random)
        }
        _ => random.signed(31),
    }
}
