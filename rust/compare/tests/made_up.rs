//! Panels of any bytes, handed to every call: each gets an answer, the same of
//! both sides, and a reading or a gauge only by an image that the level accepts.

use compare::both::verdict;
use compare::history::{counts, Event};
use compare::panels::Panels;
use compare::pieces::lines;
use compare::random::Random;
use compare::readings::case;
use compare::run::run;
use compare::tally::{required, Tally};
use compare::texts::{room, text_of};

/// The bytes of a panel.
const BYTES: usize = 16;
/// Where the fields stand in them.
const LINES: usize = 0;
const SIZE: usize = 8;
const LEVEL: usize = 12;
const STAGE: usize = 13;
const FIRST: usize = 14;

/// Any bytes; most times the fields are near what they may be.
fn made_up(size: usize, level: u32, random: &mut Random) -> [u8; BYTES] {
    let mut bytes = [0; BYTES];
    bytes.copy_from_slice(&random.bytes(BYTES));
    if random.chance(10) {
        return bytes;
    }
    bytes[STAGE] = random.pick(&[0, 1, 1, 1, 2, 2, 2, 3, 3, 3, 4]);
    bytes[LEVEL] = match random.below(10) {
        0 => random.pick(&[0, 1, 2, 3, 255]),
        _ => level as u8,
    };
    let size = match random.below(10) {
        0 => random.pick(&[0, 1, 4_096, 4_097, 65_536, u32::MAX]),
        1 => random.number() as u32,
        _ => size as u32,
    };
    bytes[SIZE..SIZE + 4].copy_from_slice(&size.to_ne_bytes());
    if random.chance(50) {
        let lines = random.pick(&[0, 1, 12, u64::MAX - 1, u64::MAX]);
        bytes[LINES..LINES + 8].copy_from_slice(&lines.to_ne_bytes());
    }
    if random.chance(80) {
        bytes[FIRST] = 0x51;
    }
    bytes
}

#[test]
fn made_up_panels() {
    let mut loads = Tally::new("made up: loads");
    let mut readings = Tally::new("made up: readings");
    let mut lit_without = 0;
    run("made up", |random| {
        let case = case(random);
        let text = lines(&text_of(&case.image, 5, random).bytes);
        // as if so many lines had been taken
        let taken = random.below(text.len() + 1);
        let data: usize = text[..taken]
            .iter()
            .map(|line| line.len().saturating_sub(11) / 2)
            .sum();
        let size = random.pick(&[data, case.image.len()]);
        let bytes = made_up(size, case.level, random);
        let mut buffer = case.image.clone();
        buffer.resize(room(case.image.len(), random), random.byte());
        if random.chance(50) {
            buffer.iter_mut().take(1).for_each(|byte| *byte = 0);
        }
        let mut panels = Panels::made_up(bytes, &buffer);

        let counts = counts(case.pressure, case.temperature);
        let mut events = vec![Event::Reading(counts)];
        match random.below(10) {
            0 => events.push(Event::Begin),
            1 => events.push(Event::Load(text.concat())),
            _ => {}
        }
        let from = random.pick(&[taken, taken, taken, 0, text.len()]);
        events.extend(text[from..].iter().cloned().map(Event::Line));
        events.push(Event::Reading(counts));
        events.push(Event::End);
        events.push(Event::Reading(counts));
        let mut under_way = matches!(bytes[STAGE], 1 | 2);
        for event in &events {
            let told = panels.after(event);
            if let (true, Some(load)) = (under_way, &told.load) {
                loads.count(load);
            }
            under_way = told.load.is_none();
            let held = match told.load {
                Some(Ok(size)) => &panels.part()[..size.min(panels.part().len())],
                _ => &[],
            };
            let judged = verdict(held, told.level.into());
            assert_eq!(told.gauge.map(|_| ()), judged);
            lit_without += u64::from(told.lit && judged.is_err());
            if let Some(reading) = &told.reading {
                readings.count(reading);
                assert!(judged.is_ok() || *reading == Err(judged.unwrap_err()));
            }
        }
    });
    println!("made up: {} green lamps without a good image", lit_without);
    assert!(lit_without >= required(90_000));
    loads.require(&[
        (0, 2_300),
        (1, 7_500),
        (2, 10),
        (3, 4_700),
        (4, 800),
        (5, 1_000),
        (6, 35),
        (7, 700),
        (8, 20),
        (9, 240),
        (10, 20),
        (11, 15),
        (12, 18),
        (13, 25),
        (15, 18),
        (16, 5),
        (20, 450),
    ]);
    readings.require(&[
        (0, 5_000),
        (5, 70_000),
        (6, 270),
        (7, 4_000),
        (8, 35),
        (9, 290),
        (10, 15),
        (11, 15),
        (12, 20),
        (13, 30),
        (15, 25),
        (16, 8),
        (20, 16_000),
        (21, 440),
        (22, 180),
        (23, 520),
        (24, 780),
        (26, 690),
    ]);
}
