//! What is told of the examples is what the proved `show` prints of them.

use super::samples::{build, example, image_of, told};
use crate::gauge::Gauge;
use crate::status::Status;
use bjorkneve::Level;

/// The examples of examples/shown, each with the lines that `show` prints.
fn shown() -> Vec<(&'static str, Vec<&'static str>)> {
    let mut examples: Vec<(&str, Vec<&str>)> = Vec::new();
    for line in include_str!("../../../../examples/shown").lines() {
        let file = line
            .strip_prefix("examples/")
            .and_then(|file| file.strip_suffix(".hex"));
        match (file, examples.last_mut()) {
            (Some(name), _) => examples.push((name, Vec::new())),
            (None, Some((_, lines))) if line.starts_with("level ") || line.starts_with("text ") => {
                lines.push(line)
            }
            // What follows the examples is about other inputs.
            _ => break,
        }
    }
    examples
}

#[test]
fn verdicts_are_those_of_show() {
    let examples = shown();
    assert_eq!(examples.len(), 8);
    for (name, lines) in examples {
        let (page, status) = told(&example(name));
        let refused = lines.iter().filter(|line| line.contains(" refused "));
        assert_eq!(
            status == Status::Refused,
            refused.clone().count() > 0,
            "{name}"
        );
        for line in refused {
            let words: Vec<&str> = line.rsplit(' ').take(2).collect();
            let numbers = format!(": fault {}, detail {}.\n", words[1], words[0]);
            assert!(page.contains(&numbers), "{name}: {page}");
        }
    }
}

#[test]
fn the_gauge_is_that_of_show() {
    let mut gauges = 0;
    for (name, lines) in shown() {
        for line in lines {
            let Some((level, said)) = line.split_once(" serial ") else {
                continue;
            };
            let number: u32 = level["level ".len()..].parse().expect("a level");
            let level = Level::try_from(number).expect("a level that there is");
            let gauge =
                Gauge::accepted(&image_of(&example(name)), level).expect("an accepted image");
            let orders = [&gauge.pressure_set, &gauge.temperature_set]
                .map(|set| [set.pressure, set.temperature]);
            let told = format!(
                "{} date {} pressure {} {} temperature {} {}",
                gauge.serial,
                gauge.date(),
                orders[0][0],
                orders[0][1],
                orders[1][0],
                orders[1][1]
            );
            assert_eq!(told, said, "{name}");
            gauges += 1;
        }
    }
    assert_eq!(gauges, 10);
}

#[test]
fn unit_trim_and_note() {
    let (page, _) = told(&example("trimmed"));
    assert!(page.contains("shown in bar, by the trim"), "{page}");
    assert!(
        page.contains("span 18507980 / 2^28 = 0.068947598"),
        "{page}"
    );
    // document 01's example: 4,518,550 / 65,536
    assert!(page.contains(" 1000 psi as 68.94760 bar."), "{page}");
    let (page, _) = told(&example("noted"));
    let note = "The supplier's note, not judged by this program: \"SPB002-20-177\"\n";
    assert!(page.contains(note), "{page}");
    assert!(page.contains("shown in psi, without a trim"), "{page}");
}

#[test]
fn sections_have_kind_name_and_size() {
    let (page, _) = told(&example("kind200"));
    let sections = "\
    The image has 277 bytes and 4 sections:
        kind 1, 24 bytes: identity
        kind 2, 156 bytes: pressure set
        kind 3, 60 bytes: temperature set
        kind 200, 3 bytes: unknown; by its number it never changes a reading
";
    assert!(page.ends_with(sections), "{page}");
    let (page, _) = told(&example("kind100"));
    assert!(
        page.contains("    kind 100, 3 bytes: unknown; by its number it may change a reading\n"),
        "{page}"
    );
}

#[test]
fn unknown_kinds_below_128_may_change_the_reading() {
    let (page, _) = told(&build(
        &[5, 127, 128, 255],
        &[vec![], vec![], vec![], vec![]],
    ));
    let sections = "\
        kind 5, 0 bytes: unknown; by its number it may change a reading
        kind 127, 0 bytes: unknown; by its number it may change a reading
        kind 128, 0 bytes: unknown; by its number it never changes a reading
        kind 255, 0 bytes: unknown; by its number it never changes a reading
";
    assert!(page.ends_with(sections), "{page}");
}
