//! The reading by its definition, in numbers too wide to overflow, with a
//! count of the exact halves that were rounded. Used to aim, and to judge.

use crate::sets::{Prescale, Set};

/// How many exact halves were rounded, of numbers above and below 0.
#[derive(Clone, Copy, Default)]
pub struct Halves {
    pub above: u64,
    pub below: u64,
}

impl Halves {
    /// The nearest whole number to a fraction, halves upward.
    pub fn rounded(&mut self, numerator: i128, denominator: i128) -> i128 {
        if 2 * numerator.rem_euclid(denominator) == denominator {
            if numerator > 0 {
                self.above += 1;
            } else {
                self.below += 1;
            }
        }
        (2 * numerator + denominator).div_euclid(2 * denominator)
    }
}

/// F in 1/65,536 Hz; the reference count isn't 0.
pub fn frequency(sensor: u64, reference: u64, halves: &mut Halves) -> i128 {
    let cycles = 7_200_000 * 65_536 * i128::from(sensor);
    halves.rounded(cycles, i128::from(reference))
}

/// X, where 2^24 stands for 1.
pub fn scaled(order: u8, prescale: Prescale, frequency: i128, halves: &mut Halves) -> i128 {
    if order == 0 {
        return 0;
    }
    let difference = frequency - i128::from(prescale.offset);
    halves.rounded(i128::from(prescale.multiplier) * difference, 1 << 32)
}

/// The set's result on its grid of five rows of five.
pub fn result(set: &Set, pressure: i128, temperature: i128, halves: &mut Halves) -> i128 {
    let mut grid = [[0; 5]; 5];
    let columns = usize::from(set.temperature_order) + 1;
    for (row, coefficients) in grid.iter_mut().zip(set.coefficients.chunks(columns)) {
        for (place, coefficient) in row.iter_mut().zip(coefficients) {
            *place = i128::from(*coefficient);
        }
    }
    let mut rows = [0; 5];
    for (sum, row) in rows.iter_mut().zip(grid) {
        *sum = sums(row, temperature, halves);
    }
    sums(rows, pressure, halves)
}

/// The pressure shown through a trim.
pub fn trimmed(span: u32, zero: i64, pressure: i128, halves: &mut Halves) -> i128 {
    i128::from(zero) + halves.rounded(i128::from(span) * pressure, 1 << 28)
}

fn sums(values: [i128; 5], scaled: i128, halves: &mut Halves) -> i128 {
    let mut sum = values[4];
    for value in values[..4].iter().rev() {
        sum = value + halves.rounded(sum * scaled, 1 << 24);
    }
    sum
}
