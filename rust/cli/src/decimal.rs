//! Binary fractions as decimal ones, worked out in whole numbers.

/// The value divided by 2^bits, to so many places: nearest, halves upward.
pub fn decimal(value: i64, bits: u32, places: u32) -> String {
    let scale = 10_i128.pow(places);
    let whole = 1_i128 << bits;
    let steps = (2 * i128::from(value) * scale + whole).div_euclid(2 * whole);
    let sign = if steps < 0 { "-" } else { "" };
    let (before, after) = (steps.abs() / scale, steps.abs() % scale);
    format!("{sign}{before}.{after:0width$}", width = places as usize)
}

/// A pressure or a temperature, which are told in 1/65,536, to five places.
pub fn measured(value: i64) -> String {
    decimal(value, 16, 5)
}

#[cfg(test)]
mod tests {
    use super::*;

    #[test]
    fn whole_and_parts() {
        assert_eq!(measured(0), "0.00000");
        assert_eq!(measured(65_536), "1.00000");
        assert_eq!(measured(-65_536), "-1.00000");
        assert_eq!(measured(1), "0.00002");
        assert_eq!(measured(65_535), "0.99998");
        assert_eq!(decimal(18_507_980, 28, 9), "0.068947598");
    }

    #[test]
    fn halves_go_upward() {
        // 1/8 and 3/8 to two places
        assert_eq!(decimal(1, 3, 2), "0.13");
        assert_eq!(decimal(3, 3, 2), "0.38");
        assert_eq!(decimal(-1, 3, 2), "-0.12");
        assert_eq!(decimal(-3, 3, 2), "-0.37");
    }

    #[test]
    fn no_zero_below_zero() {
        assert_eq!(decimal(-1, 30, 5), "0.00000");
    }

    #[test]
    fn the_largest_numbers() {
        assert_eq!(measured(i64::MAX), "140737488355327.99998");
        assert_eq!(measured(i64::MIN), "-140737488355328.00000");
    }
}
