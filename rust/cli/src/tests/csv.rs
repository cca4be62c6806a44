//! Counts in lines, each with its answer.

use super::samples::example;
use crate::csv::readings;
use crate::status::{Failure, Status};
use crate::text;
use bjorkneve::LARGEST_IMAGE;
use std::cell::Cell;
use std::io::{self, BufReader, Read, Write};

fn answers(input: &[u8]) -> (String, Status) {
    let mut buffer = [0; LARGEST_IMAGE];
    let image = text::image(&example("trimmed"), &mut buffer).expect("a good text");
    let mut page = Vec::new();
    let status = readings(BufReader::new(input), image, 2, &mut page).expect("a page in memory");
    (String::from_utf8(page).expect("words"), status)
}

const READING: &str = "reading,206.10799,bar,60.41754,0\n";

#[test]
fn each_form_of_a_line() {
    for line in [
        "10000,2847876,10000,1352875\n",
        "10000,2847876,10000,1352875",
        "10000,2847876,10000,1352875\r\n",
        " 10000 ,\t2847876, 10000,1352875 \n",
        "0010000,2847876,10000,1352875\n",
    ] {
        assert_eq!(
            answers(line.as_bytes()),
            (READING.into(), Status::Answered),
            "{line}"
        );
    }
    assert_eq!(answers(b""), (String::new(), Status::Answered));
}

#[test]
fn refused_counts() {
    let refused = "refused,line 2,22,2,\"The number of reference cycles is 0. \
        Where: temperature channel. NRT, the number that you gave, is 0.\"\n";
    let (page, status) = answers(b"10000,2847876,10000,1352875\n10000,2847876,10000,0\n");
    assert_eq!(
        (page, status),
        (format!("{READING}{refused}"), Status::Refused)
    );
}

#[test]
fn marked_readings() {
    for (counts, marked) in [
        (
            "10000,3280000,10000,1355000",
            "marked,-0.70508,bar,61.03810,2\n",
        ),
        (
            "10000,3280000,10000,1000000",
            "marked,-2.33350,bar,-75.99638,3\n",
        ),
    ] {
        assert_eq!(
            answers(counts.as_bytes()),
            (marked.into(), Status::Answered)
        );
    }
}

#[test]
fn lines_that_are_no_counts() {
    let long = [b' '; 1_000];
    let lines: [&[u8]; 7] = [
        b"",
        b"1,2,3",
        b"1,2,3,4,5",
        b"1,2,\"3\",4",
        b"1,2,3,-4",
        b"\xFF,2,3,4",
        &long,
    ];
    let (page, status) = answers(&lines.join(&b'\n'));
    assert_eq!(status, Status::NoAnswer);
    assert_eq!(page.lines().count(), lines.len());
    for (number, line) in (1..).zip(page.lines()) {
        assert!(
            line.starts_with(&format!("error,line {number},\"")) && line.ends_with('"'),
            "{line}"
        );
    }
    assert!(
        page.contains("error,line 4,\"NST: '\"\"3\"\"' is not a number"),
        "{page}"
    );
    assert!(
        page.contains("error,line 7,\"the line has more than 255 characters\"\n"),
        "{page}"
    );
}

#[test]
fn a_long_line_takes_none_of_the_next() {
    for length in [254, 255, 256, 257, 258, 259, 10_000] {
        for line_end in ["\n", "\r\n"] {
            let input = format!(
                "{}{line_end}10000,2847876,10000,1352875\n",
                " ".repeat(length)
            );
            let (page, _) = answers(input.as_bytes());
            assert_eq!(page.lines().count(), 2, "{length}");
            assert!(page.ends_with(READING), "{length}");
            assert_eq!(page.contains("more than 255"), length > 255, "{length}");
        }
    }
}

#[test]
fn an_input_that_fails_is_no_end() {
    struct Fails;
    impl Read for Fails {
        fn read(&mut self, _: &mut [u8]) -> io::Result<usize> {
            Err(io::Error::from_raw_os_error(5))
        }
    }
    let input = BufReader::new(b"1,2,3,4\n".chain(Fails));
    let mut page = Vec::new();
    let failure = readings(input, &[], 2, &mut page).expect_err("no status");
    assert!(
        matches!(failure, Failure::Said(words) if words.starts_with("cannot read standard input: "))
    );
    assert!(page.starts_with(b"refused,line 1,5,0,"));
}

#[test]
fn an_answer_is_out_before_the_next_line_is_waited_for() {
    /// Lines that come one at a time, each only once the one before is answered.
    struct Asker<'a>(u32, &'a Cell<u32>);
    impl Read for Asker<'_> {
        fn read(&mut self, buffer: &mut [u8]) -> io::Result<usize> {
            assert_eq!(self.1.get(), self.0);
            if self.0 == 3 {
                return Ok(0);
            }
            self.0 += 1;
            (&b"1,2,3,4\n"[..]).read(buffer)
        }
    }
    /// Counts the lines that have come out.
    struct Reader<'a>(&'a Cell<u32>);
    impl Write for Reader<'_> {
        fn write(&mut self, bytes: &[u8]) -> io::Result<usize> {
            let lines = bytes.iter().filter(|byte| **byte == b'\n').count();
            self.0.set(self.0.get() + lines as u32);
            Ok(bytes.len())
        }
        fn flush(&mut self) -> io::Result<()> {
            Ok(())
        }
    }
    let answered = Cell::new(0);
    let mut out = io::BufWriter::new(Reader(&answered));
    let status = readings(BufReader::new(Asker(0, &answered)), &[], 2, &mut out);
    assert!(matches!(status, Ok(Status::Refused)));
    assert_eq!(answered.get(), 3);
}
