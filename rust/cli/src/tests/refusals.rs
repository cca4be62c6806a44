//! Each number that a panel may show, told with the fault card's words and its place.

use super::samples::{build, changed_body, example, image_of, record, text_of, text_with, told};
use crate::given::counts_of;
use crate::reading::reading;
use crate::status::Status;
use bjorkneve::fault_card::TABLES;
use bjorkneve::{refused, Refusal};

/// A level and counts, with which a text's image is refused.
type Asked = (u64, [&'static str; 4]);

/// What `words` tells of texts that are refused so, with where.
fn of_texts() -> Vec<(u32, u64, Vec<u8>, &'static str)> {
    let typical = image_of(&example("typical"));
    let changed = |place: usize, byte: u8| {
        let mut image = typical.clone();
        image[place] = byte;
        text_of(&image)
    };
    let full: String = (0..17)
        .map(|line| record(line * 255, 0, &[7; 255]))
        .collect();
    vec![
        (1, 1, b"".to_vec(), "line 1. The text is empty."),
        (
            2,
            3,
            example("damaged"),
            "line 3. The error may be anywhere in this line.",
        ),
        (
            3,
            1,
            record(0, 4, &[0, 0]).into(),
            "line 1. The type is 04, and only 00 and 01 are taken.",
        ),
        (
            4,
            17,
            full.into(),
            "line 17. With this record the image would have more than 4096 bytes.",
        ),
        (
            4,
            0,
            vec![b':'; 65_537],
            "The text has more than 65536 bytes.",
        ),
        (5, 0, text_of(&[]), "the image has 0 bytes."),
        (
            5,
            0,
            text_of(&[0x52, 1, 2]),
            "the image has 3 bytes, and its first is hexadecimal 52.",
        ),
        (
            6,
            0,
            text_of(&[0x51, 1]),
            "byte 1, the number of contents lines, is 1, and the image has 2 bytes.",
        ),
        (
            7,
            1,
            changed(2 + 8 + 1, 9),
            "contents line 1, counted from 0, with kind 2, pressure set.",
        ),
        (
            7,
            3,
            text_of(&[&typical[..], &[0]].concat()),
            "after the contents lines: the last body doesn't end where the image ends.",
        ),
        (
            8,
            2,
            changed(2 + 16 + 6, 0),
            "contents line 2, counted from 0, with kind 3, temperature set.",
        ),
        (
            9,
            100,
            example("kind100"),
            "kind 100, unknown; by its number it may change a reading.",
        ),
        (9, 4, example("trimmed"), "kind 4, trim."),
        (10, 1, build(&[200], &[vec![]]), "kind 1, identity."),
        (
            11,
            0,
            text_with(&[(1, changed_body(1, 6, 13))]),
            "kind 1, identity.",
        ),
        (
            12,
            0,
            text_with(&[(2, changed_body(2, 0, 2))]),
            "kind 2, pressure set.",
        ),
        (
            13,
            0,
            text_with(&[(3, changed_body(3, 0, 2))]),
            "kind 3, temperature set.",
        ),
        (15, 0, text_with(&[(4, vec![9; 16])]), "kind 4, trim."),
        (16, 0, text_with(&[(129, vec![])]), "kind 129, note."),
    ]
}

/// What `reading` tells of counts that are refused so, with where.
fn of_counts() -> Vec<(u32, u64, Vec<u8>, Asked, &'static str)> {
    let typical = || example("typical");
    // order 0 and 0, a coefficient of 2^34
    let mut set = vec![0; 28];
    set[..2].copy_from_slice(&[1, 1]);
    set.extend_from_slice(&(1_i64 << 34).to_le_bytes());
    let large = |kind| text_with(&[(kind, set.clone())]);
    let good = ["10000", "2847876", "10000", "1352875"];
    let far = ["1", "72", "10000", "1352875"];
    let far_below = ["10000", "2847876", "1", "720"];
    vec![
        (
            20,
            0,
            typical(),
            (1 << 32 | 1, good),
            "LEVEL is 4294967297; levels are 1 and 2.",
        ),
        (
            21,
            1,
            typical(),
            (1, ["0", "1", "1", "1"]),
            "pressure channel. NSP, the number that you gave, is 0.",
        ),
        (
            21,
            2,
            typical(),
            (1, ["10000", "2847876", "1048577", "1"]),
            "temperature channel. NST, the number that you gave, is 1048577.",
        ),
        (
            22,
            1,
            typical(),
            (1, ["1", "0", "1", "1"]),
            "pressure channel. NRP, the number that you gave, is 0.",
        ),
        (
            23,
            1,
            typical(),
            (1, ["1", "71", "1", "100"]),
            "pressure channel. NSP and NRP, the numbers that you gave, are 1 and 71.",
        ),
        (
            24,
            1,
            typical(),
            (2, far),
            "pressure frequency in the pressure set.",
        ),
        (
            24,
            2,
            typical(),
            (2, far_below),
            "temperature frequency in the pressure set.",
        ),
        (26, 2, large(2), (2, good), "pressure set."),
        (26, 3, large(3), (2, good), "temperature set."),
    ]
}

fn check(page: &str, refusal: Refusal, place: &str) {
    let Refusal { number, detail } = refusal;
    let row = TABLES
        .iter()
        .flat_map(|table| table.rows)
        .find(|row| row.number == number)
        .expect("a row");
    // Whoever gave a level or counts looks at these first.
    let to_do = match number {
        refused::NO_SUCH_LEVEL => {
            "Give the panel's level, 1 or 2. Its maker tells which it is.".into()
        }
        refused::SENSOR_CYCLES | refused::REFERENCE_CYCLES | refused::FREQUENCY => {
            let rest = row.what_to_do.strip_prefix("Check").expect("what to check");
            format!("First check the counts that you gave. Then check{rest}")
        }
        _ => row.what_to_do.to_string(),
    };
    for words in [
        format!(
            ": fault {number}, detail {detail}.\n    What happened: {}\n    Where: {place}\n",
            row.what_happened
        ),
        format!("\n    What to do: {to_do}\n"),
    ] {
        assert!(page.contains(&words), "{words}: {page}");
    }
}

#[test]
fn each_number_has_its_words_and_its_place() {
    let mut told_of = Vec::new();
    for (number, detail, text, place) in of_texts() {
        let (page, status) = told(&text);
        assert_eq!(status, Status::Refused);
        check(&page, Refusal { number, detail }, place);
        told_of.push(number);
    }
    for (number, detail, text, (level, counts), place) in of_counts() {
        let mut page = Vec::new();
        let counts = counts_of(&counts).expect("counts");
        let status = reading(&mut page, &text, level, counts).expect("a page in memory");
        assert_eq!(status, Status::Refused);
        check(
            &String::from_utf8_lossy(&page),
            Refusal { number, detail },
            place,
        );
        told_of.push(number);
    }
    // The writer's and the builder's are not asked here, and no accepted image gives 25.
    let others = [
        refused::NO_ROOM,
        refused::BUILDER_LINES,
        refused::BUILDER_LENGTHS,
        refused::SUM_TOO_LARGE,
    ];
    for row in TABLES.iter().flat_map(|table| table.rows) {
        assert!(
            told_of.contains(&row.number) != others.contains(&row.number),
            "{}",
            row.number
        );
    }
}

#[test]
fn a_note_that_level_2_refuses_is_not_shown() {
    let (page, status) = told(&text_with(&[(129, vec![0x1B, b'[', b'2', b'J'])]));
    assert_eq!(status, Status::Refused);
    let first = "sample: panels of level 1 take this file, those of level 2 refuse it.\n\
        It says that it is for the gauge with serial number 157879, ";
    assert!(page.starts_with(first), "{page}");
    let refused = "\nPanels of level 2 refuse it: fault 16, detail 0.\n";
    assert!(page.contains(refused), "{page}");
    assert!(
        !page.contains('\x1B') && !page.contains("supplier's note"),
        "{page}"
    );
}
