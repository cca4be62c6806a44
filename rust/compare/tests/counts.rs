//! Readings taken by both sides, and by the definition in wider numbers.

use compare::both::reading;
use compare::counts::Cycles;
use compare::exact::Halves;
use compare::lent::Placed;
use compare::readings::case;
use compare::run::run;
use compare::tally::{required, Tally};
use reference::{Channel, Counts, ReferenceCycles, SensorCycles};

fn channel((sensor, reference): Cycles) -> Channel {
    Channel {
        sensor: SensorCycles(sensor),
        reference: ReferenceCycles(reference),
    }
}

#[test]
fn readings() {
    let mut tally = Tally::new("readings");
    let mut halves = [Halves::default(); 4];
    let mut marks = [0; 4];
    let mut units = [0; 4];
    run("readings", |random| {
        let case = case(random);
        let counts = Counts {
            pressure: channel(case.pressure),
            temperature: channel(case.temperature),
        };
        let image = Placed::new(&case.image, random);
        let answer = reading(image.part(), case.level, counts);
        tally.count(&answer);
        if let (Ok(reading), Some(expected)) = (answer, case.expected) {
            assert_eq!(i128::from(reading.pressure), expected.pressure);
            assert_eq!(i128::from(reading.temperature), expected.temperature);
            assert_eq!((reading.unit, reading.mark), (expected.unit, expected.mark));
            marks[usize::from(reading.mark)] += 1;
            units[usize::from(reading.unit)] += 1;
            for (all, these) in halves.iter_mut().zip(expected.halves) {
                all.above += these.above;
                all.below += these.below;
            }
        }
    });

    let names = ["frequency", "scaled frequency", "running sum", "trim"];
    for (name, halves) in names.iter().zip(halves) {
        println!(
            "readings: halves of the {}: {} above 0, {} below",
            name, halves.above, halves.below
        );
        assert!(halves.above >= required(2_000), "{}", name);
        // A frequency is never below 0.
        assert!(*name == "frequency" || halves.below >= required(2_000));
    }
    println!("readings: marks {:?}, units {:?}", marks, &units[1..]);
    assert!(marks.iter().all(|seen| *seen >= required(1_000)));
    assert!(units[1..].iter().all(|seen| *seen >= required(2_000)));

    // Number 25 cannot be given: with coefficients within 2^34 and X within 1
    // every running sum stays within 25 times 2^34 and a little.
    tally.require(&[
        (0, 20_000),
        (5, 60),
        (6, 50),
        (7, 400),
        (8, 200),
        (9, 2_500),
        (10, 200),
        (11, 100),
        (12, 150),
        (13, 200),
        (15, 150),
        (16, 60),
        (20, 600),
        (21, 1_500),
        (22, 600),
        (23, 2_000),
        (24, 2_500),
        (26, 2_000),
    ]);
    tally.require_each(21, &[1, 2], 300);
    tally.require_each(22, &[1, 2], 200);
    tally.require_each(23, &[1, 2], 300);
    tally.require_each(24, &[1, 2, 3, 4], 300);
    tally.require_each(26, &[2, 3], 300);
}
