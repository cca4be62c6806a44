use crate::Refusal;

const HEAD: usize = 28;
const COEFFICIENT: usize = 8;
const ORDER_LIMIT: u8 = 4;
const COEFFICIENT_LIMIT: u64 = 1 << 34;
const MULTIPLIER_LIMIT: u32 = 1 << 30;
const OFFSET_LIMIT: u64 = 6_553_600_000;
const SCALED_LIMIT: u64 = 1 << 24;
const SUM_LIMIT: u64 = 500_000_000_000;
const RESULT_LIMIT: u64 = 1 << 31;

/// An accepted pressure or temperature set.
pub(crate) struct Set<'a> {
    pressure: Prescale,
    temperature: Prescale,
    /// Bytes of a row: A0, A1, .. up to the temperature order.
    row: usize,
    coefficients: &'a [u8],
}

/// The numbers a refused set is named by.
pub(crate) struct Names {
    pub(crate) kind: u64,
    pub(crate) scaled_pressure: u64,
    pub(crate) scaled_temperature: u64,
}

impl<'a> Set<'a> {
    pub(crate) fn parse(body: &'a [u8]) -> Option<Self> {
        let head: &[u8; HEAD] = body.get(..HEAD)?.try_into().ok()?;
        let coefficients = &body[HEAD..];
        let [pressure_algorithm, temperature_algorithm, pressure_order, temperature_order] =
            [head[0], head[1], head[2], head[3]];
        if pressure_algorithm != 1
            || temperature_algorithm != 1
            || pressure_order > ORDER_LIMIT
            || temperature_order > ORDER_LIMIT
        {
            return None;
        }
        let row = COEFFICIENT * (usize::from(temperature_order) + 1);
        if coefficients.len() != row * (usize::from(pressure_order) + 1) {
            return None;
        }
        let pressure = Prescale::parse(pressure_order, head[4..16].try_into().ok()?)?;
        let temperature = Prescale::parse(temperature_order, head[16..28].try_into().ok()?)?;
        let mut all = coefficients.chunks_exact(COEFFICIENT);
        if !all.all(|bytes| signed(bytes).unsigned_abs() <= COEFFICIENT_LIMIT) {
            return None;
        }
        Some(Self {
            pressure,
            temperature,
            row,
            coefficients,
        })
    }

    /// The set's result for the two frequencies (numbers 24 to 26).
    pub(crate) fn evaluate(
        &self,
        pressure_frequency: u64,
        temperature_frequency: u64,
        names: Names,
    ) -> Result<i64, Refusal> {
        let pressure = self
            .pressure
            .scale(pressure_frequency)
            .ok_or(Refusal::with(24, names.scaled_pressure))?;
        let temperature = self
            .temperature
            .scale(temperature_frequency)
            .ok_or(Refusal::with(24, names.scaled_temperature))?;
        let result = self
            .polynomial(pressure, temperature)
            .ok_or(Refusal::with(25, names.kind))?;
        if result.unsigned_abs() > RESULT_LIMIT {
            return Err(Refusal::with(26, names.kind));
        }
        Ok(result)
    }

    /// Absent places of the grid are skipped: a step from 0 adds 0, so a sum
    /// that starts at the last coefficient there is comes out the same.
    fn polynomial(&self, pressure: i64, temperature: i64) -> Option<i64> {
        let mut total = 0;
        for row in self.coefficients.chunks_exact(self.row).rev() {
            let mut sum = 0;
            for coefficient in row.chunks_exact(COEFFICIENT).rev() {
                sum = step(sum, temperature, signed(coefficient))?;
            }
            total = step(total, pressure, sum)?;
        }
        Some(total)
    }
}

/// One step of a running sum, or nothing beyond its limit. The limit times
/// 2^24 is below 2^63, so the product of a kept sum always fits.
#[inline(always)]
fn step(sum: i64, scaled: i64, next: i64) -> Option<i64> {
    let sum = next + ((sum * scaled + (1 << 23)) >> 24);
    if sum.unsigned_abs() > SUM_LIMIT {
        return None;
    }
    Some(sum)
}

/// A coefficient; the part handed in always has its eight bytes.
#[inline(always)]
fn signed(bytes: &[u8]) -> i64 {
    bytes.try_into().map_or(0, i64::from_le_bytes)
}

struct Prescale {
    multiplier: u32,
    offset: u64,
}

impl Prescale {
    fn parse(order: u8, bytes: &[u8; 12]) -> Option<Self> {
        let multiplier = u32::from_le_bytes([bytes[0], bytes[1], bytes[2], bytes[3]]);
        let offset = u64::from_le_bytes([
            bytes[4], bytes[5], bytes[6], bytes[7], bytes[8], bytes[9], bytes[10], bytes[11],
        ]);
        let good = if order == 0 {
            multiplier == 0 && offset == 0
        } else {
            (1..=MULTIPLIER_LIMIT).contains(&multiplier) && offset <= OFFSET_LIMIT
        };
        if good {
            Some(Self { multiplier, offset })
        } else {
            None
        }
    }

    /// The scaled frequency, or nothing beyond 1 either side. At order 0 the
    /// multiplier is 0, which gives 0 without a question. The product stays
    /// below 2^63: 2^30 times less than 2^33.
    fn scale(&self, frequency: u64) -> Option<i64> {
        let difference = frequency as i64 - self.offset as i64;
        let scaled = (i64::from(self.multiplier) * difference + (1 << 31)) >> 32;
        if scaled.unsigned_abs() > SCALED_LIMIT {
            return None;
        }
        Some(scaled)
    }
}

#[cfg(test)]
mod tests {
    use super::*;

    #[test]
    fn a_step_rounds_halves_upward() {
        assert_eq!(step(1 << 23, 1, 0), Some(1));
        assert_eq!(step(-(1 << 23), 1, 0), Some(0));
    }

    #[test]
    fn a_scaled_frequency_may_be_one_but_not_above() {
        let prescale = Prescale {
            multiplier: 1 << 24,
            offset: 700_000_000,
        };
        assert_eq!(
            prescale.scale(700_000_000 + 4_294_967_296 + 127),
            Some(16_777_216)
        );
        assert_eq!(prescale.scale(700_000_000 + 4_294_967_296 + 128), None);
    }

    #[test]
    fn rows_run_along_the_temperature() {
        let mut coefficients = [0; 32];
        for (bytes, value) in
            coefficients
                .chunks_exact_mut(8)
                .zip([6_553_600_i64, 65_536, 131_072, 3])
        {
            bytes.copy_from_slice(&value.to_le_bytes());
        }
        let set = Set {
            pressure: Prescale {
                multiplier: 1,
                offset: 0,
            },
            temperature: Prescale {
                multiplier: 1,
                offset: 0,
            },
            row: 16,
            coefficients: &coefficients,
        };
        let row = |number: usize| Set {
            pressure: Prescale {
                multiplier: 0,
                offset: 0,
            },
            temperature: Prescale {
                multiplier: 1,
                offset: 0,
            },
            row: 16,
            coefficients: &coefficients[16 * number..16 * number + 16],
        };
        assert_eq!(row(0).polynomial(0, -(1 << 23)), Some(6_520_832));
        assert_eq!(row(1).polynomial(0, -(1 << 23)), Some(131_071));
        assert_eq!(set.polynomial(1 << 23, -(1 << 23)), Some(6_586_368));
    }
}
