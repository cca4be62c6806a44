//! What is told of a gauge and of a reading, beside what the library makes of them.

use super::samples::{image_of, text_with, told};
use crate::decimal::measured;
use crate::gauge::Gauge;
use crate::trim::Trim;
use bjorkneve::{Channel, Counts, Level, ReferenceCycles, SensorCycles, Unit};
use compare::counts::Cycles;
use compare::readings::case;
use compare::run::run;

fn channel((sensor, reference): Cycles) -> Channel {
    Channel {
        sensor: SensorCycles(sensor),
        reference: ReferenceCycles(reference),
    }
}

#[test]
fn unit_and_numbers_are_the_librarys() {
    let mut units = [0; 4];
    run("gauges", |random| {
        let case = case(random);
        let counts = Counts {
            pressure: channel(case.pressure),
            temperature: channel(case.temperature),
        };
        let Ok(level) = Level::try_from(case.level) else {
            return;
        };
        let Ok(reading) = bjorkneve::reading(&case.image, level, counts) else {
            return;
        };
        let gauge = Gauge::accepted(&case.image, level).expect("an image that gives a reading");
        let unit = gauge.trim.map_or(Unit::Psi, |trim| trim.unit);
        assert_eq!(unit, reading.unit);
        units[usize::from(u8::from(unit))] += 1;
        for value in [reading.pressure, reading.temperature] {
            let told: f64 = measured(value).parse().expect("a number");
            // half of the last place, and what binary64 itself may be off at 2^40 / 65,536
            assert!(
                (told - value as f64 / 65_536.0).abs() <= 0.000_005_01,
                "{value}"
            );
        }
    });
    println!("gauges: units {:?}", &units[1..]);
    assert!(units[1..].iter().all(|seen| *seen > 0));
}

/// A set of these orders, with multipliers and offsets of 1 where the order isn't 0, and coefficients of 0.
fn set(pressure: u8, temperature: u8) -> Vec<u8> {
    let mut body = vec![1, 1, pressure, temperature];
    for order in [pressure, temperature] {
        let one = u8::from(order > 0);
        body.extend_from_slice(&[one, 0, 0, 0, one, 0, 0, 0, 0, 0, 0, 0]);
    }
    let coefficients = (usize::from(pressure) + 1) * (usize::from(temperature) + 1);
    body.resize(body.len() + 8 * coefficients, 0);
    body
}

#[test]
fn each_field_is_told_from_its_place() {
    let identity = [
        &0xFEDC_BA98_u32.to_le_bytes()[..],
        &2004_u16.to_le_bytes(),
        &[2, 29],
        &(-20_i32).to_le_bytes(),
        &150_i32.to_le_bytes(),
        &(-15_i32).to_le_bytes(),
        &16_000_i32.to_le_bytes(),
    ];
    let trim = [
        &[3, 0, 0, 0][..],
        &1_850_798_000_u32.to_le_bytes(),
        &(-66_404_i64).to_le_bytes(),
    ];
    let (page, _) = told(&text_with(&[
        (1, identity.concat()),
        (2, set(4, 1)),
        (3, set(2, 3)),
        (4, trim.concat()),
        (129, b" well \\12, \"spare\"".to_vec()),
        (255, vec![0]),
    ]));
    let expected = "\
    The pressure set has order 4 in pressure and order 1 in temperature.
    The temperature set has order 2 in pressure and order 3 in temperature.
    The pressure is shown in kPa, by the trim: zero + span × the pressure in psi,
        span 1850798000 / 2^28 = 6.894759834,
        zero -66404 / 65536 = -1.01324 kPa.
    So 0 psi is shown as -1.01324 kPa, and 1000 psi as 6893.74658 kPa.
    The image has 341 bytes and 6 sections:
        kind 1, 24 bytes: identity
        kind 2, 108 bytes: pressure set
        kind 3, 124 bytes: temperature set
        kind 4, 16 bytes: trim
        kind 129, 18 bytes: note
        kind 255, 1 byte: unknown; by its number it never changes a reading
";
    assert!(page.ends_with(expected), "{page}");
    let expected = "\
It says that it is for the gauge with serial number 4275878552, calibrated on 2004-02-29.
The gauge is calibrated for -15 to 16000 psi and -20 to 150 °C.
The supplier's note, not judged by this program: \" well \\\\12, \\\"spare\\\"\"
";
    assert!(page.contains(expected), "{page}");
}

#[test]
fn a_trim_shows_a_pressure_as_the_library_does() {
    let good = || Channel {
        sensor: SensorCycles(10_000),
        reference: ReferenceCycles(1_352_875),
    };
    run("trims", |random| {
        let trim = Trim {
            unit: Unit::Bar,
            span: random.between(1, 1 << 31) as u32,
            zero: random.signed(40),
        };
        let pressure = random.signed(31);
        // orders 0 and 0: the only coefficient is the pressure
        let mut pressure_set = set(0, 0);
        pressure_set.truncate(28);
        pressure_set.extend_from_slice(&pressure.to_le_bytes());
        let mut body = vec![u8::from(trim.unit), 0, 0, 0];
        body.extend_from_slice(&trim.span.to_le_bytes());
        body.extend_from_slice(&trim.zero.to_le_bytes());
        let image = image_of(&text_with(&[(2, pressure_set), (4, body)]));
        let counts = Counts {
            pressure: good(),
            temperature: good(),
        };
        let reading = bjorkneve::reading(&image, Level::Two, counts).expect("a reading");
        assert_eq!(trim.shown_as(pressure), reading.pressure);
    });
}
