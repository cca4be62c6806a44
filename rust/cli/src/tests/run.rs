//! The program by its arguments: which program, help, version, exit status.

use crate::help;
use crate::status::{Failure, Status};
use std::ffi::OsString;

fn run(given: &[&str]) -> (Result<Status, Failure>, String, String) {
    let given: Vec<OsString> = given.iter().map(OsString::from).collect();
    let (mut page, mut errors) = (Vec::new(), Vec::new());
    let status = crate::run(&given, &mut page, &mut errors);
    let words = |bytes| String::from_utf8(bytes).expect("words");
    (status, words(page), words(errors))
}

fn example(name: &str) -> String {
    format!("{}/../../examples/{name}.hex", env!("CARGO_MANIFEST_DIR"))
}

#[track_caller]
fn prints(given: &[&str], expected: &str) {
    let (status, page, _) = run(given);
    assert!(matches!(status, Ok(Status::Answered)));
    assert_eq!(page, expected);
}

#[track_caller]
fn fails(given: &[&str], words: &str) {
    let (status, page, _) = run(given);
    assert_eq!(page, "");
    match status {
        Err(Failure::Said(said)) => assert_eq!(said, words),
        other => panic!("{other:?}"),
    }
}

#[test]
fn help_is_there_for_each_program() {
    for given in [&["help"][..], &["--help"], &["help", "--help"]] {
        prints(given, help::PROGRAM);
    }
    for (name, page) in [
        ("words", help::WORDS),
        ("reading", help::READING),
        ("card", help::CARD),
    ] {
        prints(&["help", name], page);
        prints(&["--help", name], page);
        prints(&[name, "--help"], page);
        prints(&[name, "a", "--none", "--help", "b"], page);
        let usage = page.lines().next().expect("a line");
        assert!(help::PROGRAM.contains(&usage["Usage: ".len()..]), "{usage}");
    }
    let (status, page, errors) = run(&[]);
    assert!(matches!(status, Ok(Status::NoAnswer)));
    assert_eq!((page.as_str(), errors.as_str()), ("", help::PROGRAM));
}

#[test]
fn the_version_is_the_products() {
    for given in [
        &["--version"][..],
        &["words", "--version"],
        &["help", "--version"],
    ] {
        let (_, page, _) = run(given);
        let (first, last) = (page.lines().next(), page.lines().last());
        assert_eq!(
            first,
            Some(concat!("bjorkneve ", env!("CARGO_PKG_VERSION")))
        );
        assert!(
            last.is_some_and(|line| line.starts_with("toolchain rattle-kit-")),
            "{page}"
        );
    }
}

#[test]
fn what_there_is_not_is_named() {
    fails(&["none"], "no program 'none'; bjorkneve help lists them");
    fails(
        &["help", "none"],
        "no program 'none'; bjorkneve help lists them",
    );
    fails(&["words", "--none", "a"], "words has no option '--none'");
    fails(&["words", "--level"], "--level wants a value");
}

#[test]
fn options_end_where_they_are_told_to() {
    let (status, page, errors) = run(&["words", "--", "--help"]);
    assert!(matches!(status, Ok(Status::NoAnswer)));
    assert_eq!(page, "");
    assert!(
        errors.starts_with("bjorkneve: cannot read --help: "),
        "{errors}"
    );
}

#[test]
fn arguments_that_are_no_numbers() {
    let file = example("typical");
    let expected = "is not a number as expected: digits only, without commas";
    fails(
        &["reading", &file, "2", "1", "2", "3"],
        "reading takes FILE LEVEL NSP NRP NST NRT",
    );
    fails(
        &["reading", &file, "x", "1", "2", "3", "4"],
        &format!("LEVEL: 'x' {expected}"),
    );
    fails(
        &["reading", &file, "2", "1", "-2", "3", "4"],
        &format!("NRP: '-2' {expected}"),
    );
    fails(
        &["reading", &file, "2", "1", "2", "3", "18446744073709551616"],
        "NRT: 18446744073709551616 is too large: 18446744073709551615 at most",
    );
    fails(
        &["reading", &file, "2", "+1", "2", "3", ""],
        &format!("NSP: '+1' {expected}"),
    );
    fails(
        &["reading", &file, "2", "1", "2", "3", ""],
        &format!("NRT: '' {expected}"),
    );
    fails(
        &["words", "--level", "1.5", &file],
        &format!("LEVEL: '1.5' {expected}"),
    );
    fails(
        &["reading", "--csv", "-", "2"],
        "with --csv the counts are on standard input: name the text's file",
    );
    fails(&["card", "a"], "card takes nothing");
}

#[test]
fn several_files_and_one_that_is_not_there() {
    let (good, bad) = (example("typical"), example("damaged"));
    let (status, page, errors) = run(&["words", &good, &bad, "none.hex", &good]);
    assert!(matches!(status, Ok(Status::NoAnswer)));
    assert_eq!(
        errors,
        "\nbjorkneve: cannot read none.hex: there is no such file\n"
    );
    let blocks: Vec<&str> = page.split("\n\n").collect();
    let last = "2 taken by every level asked, 1 refused, 1 could not be read.\n";
    assert_eq!((blocks.len(), blocks[3]), (4, last));
    for (block, file) in blocks.iter().zip([&good, &bad, &good]) {
        assert!(block.starts_with(&format!("{file}: ")), "{block}");
    }
    assert!(matches!(
        run(&["words", &good, &bad]).0,
        Ok(Status::Refused)
    ));
    assert!(matches!(
        run(&["words", &good, &good]).0,
        Ok(Status::Answered)
    ));
}

#[test]
fn one_level_alone() {
    let file = example("trimmed");
    let status = |level| run(&["words", "--level", level, &file]).0;
    assert!(matches!(status("1"), Ok(Status::Refused)));
    assert!(matches!(status("2"), Ok(Status::Answered)));
    let first = |level, name| {
        let (_, page, _) = run(&["words", "--level", level, &example(name)]);
        let (line, _) = page.split_once('\n').expect("a line");
        let (_, words) = line.rsplit_once(".hex: ").expect("a file's name");
        words.to_string()
    };
    assert_eq!(
        first("1", "trimmed"),
        "no panel of level 1 takes this file."
    );
    assert_eq!(first("2", "trimmed"), "panels of level 2 take this file.");
    let (status, page, _) = run(&["words", &file, "--level", "4294967298"]);
    assert!(matches!(status, Ok(Status::Refused)));
    assert!(page.contains(": fault 20, detail 0.\n"), "{page}");
}

#[test]
fn one_reading() {
    let reads = |name, level, references: [&str; 2], expected: &str| {
        let [pressure, temperature] = references;
        let file = example(name);
        let counts = ["10000", pressure, "10000", temperature];
        let expected = format!("serial number 157879, level {level}\n{expected}\n");
        prints(
            &[&["reading", &file, level], &counts[..]].concat(),
            &expected,
        );
    };
    let within = "Both lie within the gauge's limits";
    let rely = "Don't rely on this reading: check the counts, that the file is this gauge's, then the gauge.";
    reads(
        "typical",
        "1",
        ["2847876", "1352875"],
        &format!("pressure 2989.34242 psi\ntemperature 60.41754 °C\n{within}."),
    );
    reads(
        "trimmed",
        "2",
        ["2847876", "1352875"],
        &format!(
            "pressure 206.10799 bar\ntemperature 60.41754 °C\n{within}, the pressure before trim."
        ),
    );
    let outside = "lies outside the gauge's limits,";
    reads(
        "typical",
        "1",
        ["3280000", "1355000"],
        &format!("pressure -10.22635 psi\ntemperature 61.03810 °C\nCaution: the pressure {outside} 12 to 20000 psi. {rely}"),
    );
    reads(
        "trimmed",
        "2",
        ["3280000", "1000000"],
        &format!(
            "pressure -2.33350 bar\ntemperature -75.99638 °C\nCaution: the pressure before trim {outside} 12 to 20000 psi; \
            the temperature {outside} 25 to 175 °C. {rely}"
        ),
    );
}
