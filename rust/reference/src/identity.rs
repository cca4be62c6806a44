/// The gauge that an image is for.
#[derive(Debug, Clone, Copy, PartialEq, Eq)]
pub struct Gauge {
    /// Its serial number.
    pub serial: u32,
    /// The year of its calibration.
    pub year: u16,
    /// The month, 1 to 12.
    pub month: u8,
    /// The day, from 1.
    pub day: u8,
}

/// An accepted identity: the gauge, and its limits.
pub(crate) struct Identity {
    pub(crate) gauge: Gauge,
    pub(crate) lowest_temperature: i32,
    pub(crate) highest_temperature: i32,
    pub(crate) lowest_pressure: i32,
    pub(crate) highest_pressure: i32,
}

impl Identity {
    pub(crate) fn parse(body: &[u8]) -> Option<Self> {
        let body: &[u8; 24] = body.try_into().ok()?;
        let year = u16::from_le_bytes([body[4], body[5]]);
        if !real_date(year, body[6], body[7]) {
            return None;
        }
        let signed =
            |at: usize| i32::from_le_bytes([body[at], body[at + 1], body[at + 2], body[at + 3]]);
        let identity = Self {
            gauge: Gauge {
                serial: u32::from_le_bytes([body[0], body[1], body[2], body[3]]),
                year,
                month: body[6],
                day: body[7],
            },
            lowest_temperature: signed(8),
            highest_temperature: signed(12),
            lowest_pressure: signed(16),
            highest_pressure: signed(20),
        };
        if identity.lowest_temperature > identity.highest_temperature
            || identity.lowest_pressure > identity.highest_pressure
        {
            return None;
        }
        Some(identity)
    }
}

/// A Gregorian date of the years 1980 to 2099.
fn real_date(year: u16, month: u8, day: u8) -> bool {
    (1980..=2099).contains(&year)
        && (1..=12).contains(&month)
        && (1..=month_length(year, month)).contains(&u32::from(day))
}

/// The days of a month, 1 to 12, in any Gregorian year.
fn month_length(year: u16, month: u8) -> u32 {
    let leap = year % 4 == 0 && (year % 100 != 0 || year % 400 == 0);
    // Counted from March, 31 30 31 30 31 repeats, 153 days in five months, and
    // February comes last: the end of the year cuts it off, and no other month.
    let year_end = 365 + u32::from(leap);
    let from_march = (u32::from(month) + 9) % 12;
    let days_before = |months: u32| (153 * months + 2) / 5;
    days_before(from_march + 1).min(year_end) - days_before(from_march)
}

#[cfg(test)]
mod tests {
    use super::*;

    const COMMON_YEAR: [u32; 12] = [31, 28, 31, 30, 31, 30, 31, 31, 30, 31, 30, 31];

    fn calendar(year: u16, month: u8) -> u32 {
        let leap_day = match (year % 400, year % 100, year % 4) {
            (0, _, _) => 1,
            (_, 0, _) => 0,
            (_, _, 0) => 1,
            _ => 0,
        };
        COMMON_YEAR[usize::from(month) - 1] + if month == 2 { leap_day } else { 0 }
    }

    #[test]
    fn month_lengths_are_those_of_the_calendar() {
        for (year, february) in [(1900, 28), (2000, 29), (2003, 28), (2004, 29), (2100, 28)] {
            assert_eq!(month_length(year, 2), february, "{year}");
        }
        for year in 0..=u16::MAX {
            for month in 1..=12 {
                assert_eq!(
                    month_length(year, month),
                    calendar(year, month),
                    "{year} {month}"
                );
            }
        }
    }

    #[test]
    fn real_dates_are_those_of_the_calendar() {
        for year in 1979..=2100 {
            for month in 0..=u8::MAX {
                for day in 0..=u8::MAX {
                    let real = (1980..=2099).contains(&year)
                        && (1..=12).contains(&month)
                        && day >= 1
                        && u32::from(day) <= calendar(year, month);
                    assert_eq!(real_date(year, month, day), real, "{year} {month} {day}");
                }
            }
        }
    }
}
