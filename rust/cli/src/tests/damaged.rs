//! Damaged texts by the thousand: no panic, the library's own number, and a
//! caret that stands at the line.

use super::samples::{example, told};
use crate::fault::fault;
use crate::levels;
use crate::status::Status;
use bjorkneve::{refused, Refusal, LARGEST_IMAGE};
use compare::random::Random;
use compare::run::run;
use compare::texts::any_text;
use std::collections::BTreeMap;

const EXAMPLES: [&str; 7] = [
    "damaged", "kind100", "kind200", "noted", "objcopy", "trimmed", "typical",
];

/// How often each number was told.
type Seen = BTreeMap<u32, u64>;

/// What is told of a text holds what the library says of it.
fn check(text: &[u8], seen: &mut Seen) {
    let (page, status) = told(text);
    let mut buffer = [0; LARGEST_IMAGE];
    let refusals: Vec<Refusal> = match bjorkneve::read(text, &mut buffer) {
        Ok(image) => levels::all()
            .iter()
            .filter_map(|level| levels::verdict(image, *level).err())
            .collect(),
        Err(refusal) => {
            check_fault(text, refusal);
            assert!(page.starts_with("sample: the file is damaged, "), "{page}");
            vec![refusal]
        }
    };
    assert_eq!(status == Status::Refused, !refusals.is_empty());
    for Refusal { number, detail } in &refusals {
        assert!(
            page.contains(&format!(": fault {number}, detail {detail}.\n")),
            "{page}"
        );
        *seen.entry(*number).or_insert(0) += 1;
    }
    if refusals.is_empty() {
        *seen.entry(0).or_insert(0) += 1;
        let first = "sample: panels of level 1 and level 2 take this file.\nIt says that ";
        assert!(page.starts_with(first), "{page}");
    }
}

/// Each fault of a text has words, and points into the line that the library names, or just behind it.
fn check_fault(text: &[u8], refusal: Refusal) {
    let fault = fault(text, refusal);
    assert!(!fault.words.is_empty(), "{refusal:?}");
    let Some(line) = fault.line else {
        assert_eq!(
            (refusal.number, fault.pointed),
            (refused::NOT_A_RECORD, 0..0)
        );
        return;
    };
    assert!(fault.pointed.end <= line.len() + 1);
    assert!(fault.pointed.start < fault.pointed.end || line.is_empty());
    match refusal.number {
        refused::RECORD_NOT_TAKEN => assert!(fault.pointed.end <= 9),
        refused::CHECKSUM | refused::TOO_LARGE => assert_eq!(fault.pointed, 0..line.len()),
        _ => {}
    }
}

#[test]
fn one_character_of_an_example_changed() {
    let texts = EXAMPLES.map(example);
    let mut seen = Seen::new();
    run("words of changed examples", |random| {
        let mut text = texts[random.below(texts.len())].clone();
        let place = random.below(text.len());
        let character = match random.below(3) {
            0 => random.pick(b"0123456789ABCDEFabcdef"),
            1 => random.pick(b"\r\n :\t\0gG"),
            _ => random.byte(),
        };
        match random.below(3) {
            0 => text[place] = character,
            1 => text.insert(place, character),
            _ => drop(text.remove(place)),
        }
        check(&text, &mut seen);
    });
    println!("words of changed examples: {seen:?}");
    assert!([0, refused::NOT_A_RECORD, refused::CHECKSUM]
        .iter()
        .all(|number| seen.contains_key(number)));
}

#[test]
fn texts_of_any_sort() {
    let mut seen = Seen::new();
    run("words of any text", |random| {
        check(&any_text(random).bytes, &mut seen)
    });
    println!("words of any text: {seen:?}");
    for number in (0..=13).chain([15, 16]) {
        assert!(seen.contains_key(&number), "number {number} was never told");
    }
}

#[test]
fn one_digit_changed_is_a_wrong_checksum_of_that_line() {
    let text = example("typical");
    let mut random = Random::new(1);
    let lines = text.split(|character| *character == b'\n').count() as u64 - 1;
    let (mut line, mut column) = (1, 0);
    for place in 0..text.len() {
        // Another count would make the line too long or too short.
        if column > 2 && text[place].is_ascii_hexdigit() {
            let mut changed = text.clone();
            while changed[place] == text[place] {
                changed[place] = random.pick(b"0123456789ABCDEF");
            }
            let (page, _) = told(&changed);
            let refused = format!("\nIt is refused: fault 2, detail {line}.\n");
            assert!(page.contains(&refused), "{page}");
        }
        (line, column) = if text[place] == b'\n' {
            (line + 1, 0)
        } else {
            (line, column + 1)
        };
    }
    assert_eq!(line, lines + 1);
}
