//! Pressure and temperature sets.

use crate::random::Random;

/// A multiplier and an offset; both 0 where the order is 0.
#[derive(Clone, Copy, Default)]
pub struct Prescale {
    pub multiplier: u32,
    pub offset: u64,
}

/// A set; the coefficients stand in the order A0, A1, .. B0, ..
#[derive(Clone)]
pub struct Set {
    pub pressure_order: u8,
    pub temperature_order: u8,
    pub pressure: Prescale,
    pub temperature: Prescale,
    pub coefficients: Vec<i64>,
}

impl Set {
    /// A set of these orders with all coefficients 0.
    pub fn new(pressure_order: u8, temperature_order: u8) -> Self {
        let rows = usize::from(pressure_order) + 1;
        let columns = usize::from(temperature_order) + 1;
        Self {
            pressure_order,
            temperature_order,
            pressure: Prescale::default(),
            temperature: Prescale::default(),
            coefficients: vec![0; rows * columns],
        }
    }

    pub fn body(&self) -> Vec<u8> {
        let mut body = vec![1, 1, self.pressure_order, self.temperature_order];
        for prescale in [self.pressure, self.temperature] {
            body.extend_from_slice(&prescale.multiplier.to_le_bytes());
            body.extend_from_slice(&prescale.offset.to_le_bytes());
        }
        for coefficient in &self.coefficients {
            body.extend_from_slice(&coefficient.to_le_bytes());
        }
        body
    }
}

/// A good set with random fields, limits often among them.
pub fn random_set(random: &mut Random) -> Set {
    let mut set = random_orders(4, random);
    if set.pressure_order > 0 {
        set.pressure = random_prescale(random);
    }
    if set.temperature_order > 0 {
        set.temperature = random_prescale(random);
    }
    for coefficient in &mut set.coefficients {
        *coefficient = match random.below(10) {
            0 => random.pick(&[-(1 << 34), 1 << 34, 0, 1, -1]),
            _ => random.signed(34),
        };
    }
    set
}

/// A set of one order too many, but otherwise of the right length.
pub fn overfull_set(random: &mut Random) -> Set {
    let mut set = random_orders(4, random);
    if random.chance(50) {
        set = Set::new(5, set.temperature_order);
    } else {
        set = Set::new(set.pressure_order, 5);
    }
    set.pressure = random_prescale(random);
    set.temperature = random_prescale(random);
    set
}

/// An empty set of random orders; 0 is frequent.
pub fn random_orders(highest: i64, random: &mut Random) -> Set {
    let mut order = || {
        if random.chance(15) {
            0
        } else {
            random.between(0, highest) as u8
        }
    };
    Set::new(order(), order())
}

/// A good prescale of an order above 0.
pub fn random_prescale(random: &mut Random) -> Prescale {
    let multiplier = match random.below(6) {
        0 => random.pick(&[1, 2, (1 << 30) - 1, 1 << 30]),
        _ => random.signed(30).unsigned_abs().max(1) as u32,
    };
    let offset = match random.below(6) {
        0 => random.pick(&[0, 1, 6_553_599_999, 6_553_600_000]),
        _ => random.between(0, 6_553_600_000) as u64,
    };
    Prescale { multiplier, offset }
}
