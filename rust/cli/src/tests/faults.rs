//! The place of a fault in a text: each sort of fault with its words and characters.

use super::samples::{example, record};
use crate::caret;
use crate::fault::fault;
use bjorkneve::LARGEST_IMAGE;

const END: &str = ":00000001FF\n";

/// The number that the library gives, the words, and what stands above the carets.
fn found(text: &str) -> (u32, String, String) {
    let mut buffer = [0; LARGEST_IMAGE];
    let refusal = bjorkneve::read(text.as_bytes(), &mut buffer).expect_err("a bad text");
    let fault = fault(text.as_bytes(), refusal);
    let above = match fault.line {
        Some(line) => {
            let [characters, carets] = caret::shown(line, &fault.pointed);
            let under = |place: usize| carets.as_bytes().get(place) == Some(&b'^');
            characters
                .char_indices()
                .filter(|(place, _)| under(*place))
                .map(|(_, character)| character)
                .collect()
        }
        None => String::new(),
    };
    (refusal.number, fault.words, above)
}

#[track_caller]
fn expect(text: &str, number: u32, words: &str, above: &str) {
    let (given, told, pointed) = found(text);
    assert_eq!((given, pointed.as_str()), (number, above), "{told}");
    assert!(told.starts_with(words), "{told}");
}

#[test]
fn a_text_that_stops_or_goes_on() {
    expect("", 1, "The text is empty.", "");
    expect(
        ":0100000001FE\n",
        1,
        "The text stops after line 1, without the end record.",
        "",
    );
    expect(
        &format!("{END}\n"),
        1,
        "The text goes on after the end record.",
        "",
    );
    expect(
        &format!("{END}{END}"),
        1,
        "The text goes on after the end record.",
        ":00000001FF",
    );
    expect(
        &format!("{END}\x1A"),
        1,
        "The text goes on after the end record.",
        "\\x1A",
    );
}

#[test]
fn the_last_line_without_its_end() {
    let words = "The last line has no line end, which every line must have.";
    expect(":00000001FF", 1, words, "");
    let fault = fault(
        b":00000001FF",
        bjorkneve::Refusal {
            number: 1,
            detail: 1,
        },
    );
    assert_eq!(fault.pointed, 11..12);
    expect(
        ":00000001FF\r",
        1,
        "A wrong line end: a CR stands here without an LF directly after it.",
        "\\x0D",
    );
}

#[test]
fn lines_that_are_no_records() {
    expect(&format!("\n{END}"), 1, "The line is empty.", "");
    expect(&format!("\r\n{END}"), 1, "The line is empty.", "");
    expect(
        &format!(" {END}"),
        1,
        "The line doesn't start with a colon.",
        " ",
    );
    expect(
        "\u{FEFF}:00000001FF\n",
        1,
        "The line doesn't start with a colon.",
        "\\xEF",
    );
    expect(
        ":0000O001FF\n",
        1,
        "The character O is no hexadecimal digit.",
        "O",
    );
    expect(":0 000001FF\n", 1, "A blank is no hexadecimal digit.", " ");
    expect(
        ":00\t00001FF\n",
        1,
        "A tab is no hexadecimal digit.",
        "\\x09",
    );
    expect(
        ":00\u{7F}00001FF\n",
        1,
        "The byte hexadecimal 7F is no hexadecimal digit.",
        "\\x7F",
    );
    expect(
        ":0000\r001FF\n",
        1,
        "A CR without an LF directly after it is no hexadecimal digit.",
        "\\x0D",
    );
    expect(
        ":00000001FF\r\r\n",
        1,
        "A wrong line end: a CR stands here without an LF directly after it.",
        "\\x0D",
    );
    expect(
        ":00000001FF:00000001FF\n",
        1,
        "The line goes on too long: by its count of 0 data bytes it has 11 characters.",
        ":00000001FF",
    );
    expect(":00000001FF \n", 1, "The line goes on too long", " ");
    expect(":\n", 1, "The line ends before its count is told.", "");
    expect(
        ":0",
        1,
        "The text stops here, within a line, before its count is told.",
        "",
    );
    let short = "The line ends too early: by its count of 1 data byte it has 13 characters, and here are 12.";
    expect(":0100000001F\n", 1, short, "");
    expect(
        ":0100000001F",
        1,
        "The text stops here, within a line, too early",
        "",
    );
}

#[test]
fn a_line_that_its_checksum_denies_is_pointed_at_whole_and_not_mended() {
    let text = String::from_utf8(example("damaged")).expect("characters");
    let (number, words, above) = found(&text);
    assert_eq!(
        (number, above.as_str()),
        (2, text.lines().nth(2).expect("line 3"))
    );
    assert!(
        !words.contains(|character: char| character.is_ascii_digit()),
        "{words}"
    );
    expect(
        ":00000001FE\r\n",
        2,
        "The error may be anywhere in this line.",
        ":00000001FE",
    );
}

#[test]
fn records_that_are_not_taken() {
    expect(
        &record(0, 4, &[0, 0]),
        3,
        "The type is 04, and only 00 and 01 are taken.",
        "04",
    );
    expect(
        &record(0, 0, &[]),
        3,
        "The count of a data record is 0.",
        "00",
    );
    expect(
        &record(0, 1, &[7]),
        3,
        "The count of the end record isn't 0.",
        "01",
    );
    expect(
        &record(256, 1, &[]),
        3,
        "The address of the end record isn't 0.",
        "0100",
    );
    let gap = record(0, 0, &[7; 16]) + &record(17, 0, &[7]);
    expect(
        &gap,
        3,
        "The address is hexadecimal 0011, and the data before end at 0010.",
        "0011",
    );
}

#[test]
fn a_record_that_has_no_room() {
    let full: String = (0..17)
        .map(|line| record(line * 255, 0, &[7; 255]))
        .collect();
    let (number, words, above) = found(&full);
    assert_eq!(number, 4);
    assert_eq!(
        words,
        "With this record the image would have more than 4096 bytes."
    );
    assert!(above.starts_with(":FF0FF000"), "{above}");
}
