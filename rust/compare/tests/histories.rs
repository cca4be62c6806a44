//! Panels taken through histories by both sides and by the safe door.

use compare::door;
use compare::expected::Expected;
use compare::history::{history, Event};
use compare::lent::Lent;
use compare::panels::Panels;
use compare::run::run;
use compare::tally::{required, Tally};

#[test]
fn histories() {
    let mut power_on = Tally::new("histories: power-on");
    let mut loads = Tally::new("histories: loads");
    let mut readings = Tally::new("histories: readings");
    let mut gauges = Tally::new("histories: gauges");
    let mut seen = [
        ("loads by lines", 30_000, 0),
        ("loads of what are no lines", 5_000, 0),
        ("readings asked under way", 20_000, 0),
        ("green lamps that went out", 10_000, 0),
        ("gauges after another", 1_000, 0),
    ];
    let mut lent = Lent::default();
    run("histories", |random| {
        let history = history(random);
        let mut panels = Panels::new(history.size, random);
        let mut expected = Expected::new(history.size);
        let mut all = Vec::with_capacity(history.events.len());
        let mut left = Vec::new();
        for event in &history.events {
            let before = panels.part().to_vec();
            let told = panels.after(event);
            let answer = expected.check(event, &told, panels.part(), random);
            answer.iter().for_each(|answer| loads.count(answer));
            let reading = told.reading.iter();
            reading.for_each(|reading| readings.count(reading));
            gauges.count(&told.gauge);
            if let Event::PowerOn { .. } = event {
                left.push(before);
                power_on.count(&told.load.expect("power-on leaves no load under way"));
            }
            all.push(told);
        }
        left.remove(0);
        left.push(panels.part().to_vec());
        door::check(&history, &all, &left, &mut lent, random.byte());
        let here = expected.seen;
        let here = [
            here.by_lines,
            here.of_no_lines,
            here.asked_under_way,
            here.went_out,
            here.another_gauge,
        ];
        for ((_, _, all), here) in seen.iter_mut().zip(here) {
            *all += here;
        }
    });
    for (what, least, seen) in seen {
        println!("histories: {} {}", seen, what);
        assert!(seen >= required(least), "{}", what);
    }
    power_on.require(&[
        (0, 1_800),
        (5, 30_000),
        (6, 60),
        (7, 1_500),
        (8, 500),
        (9, 300),
        (10, 20),
        (11, 15),
        (12, 20),
        (13, 30),
        (15, 15),
        (16, 10),
        (20, 3_000),
    ]);
    loads.require(&[
        (0, 20_000),
        (1, 14_000),
        (2, 700),
        (3, 4_500),
        (4, 9_500),
        (5, 300),
        (6, 250),
        (7, 1_300),
        (8, 400),
        (9, 3_500),
        (10, 400),
        (11, 200),
        (12, 300),
        (13, 400),
        (15, 200),
        (16, 150),
        (20, 2_400),
    ]);
    readings.require(&[
        (0, 18_000),
        (5, 75_000),
        (20, 9_000),
        (21, 1_800),
        (22, 700),
        (23, 2_000),
        (24, 5_500),
        (26, 2_500),
    ]);
    gauges.require(&[(0, 60_000), (5, 1_200_000), (20, 100_000)]);
}
