//! HEX texts: good ones, ones with a wrong record, and damaged ones.

use crate::images::image;
use crate::random::Random;
use crate::records::{records, text, Record};
use crate::IMAGE_LIMIT;

/// A text and the length of the image it was made from.
pub struct Text {
    pub bytes: Vec<u8>,
    pub image_length: usize,
}

/// A text of any sort.
pub fn any_text(random: &mut Random) -> Text {
    let image = content(random);
    text_of(&image, 70, random)
}

/// A text of the image, damaged in so many of a hundred cases.
pub fn text_of(image: &[u8], percent: usize, random: &mut Random) -> Text {
    let mut records = records(image, random);
    let damaged = random.chance(percent);
    if damaged && random.chance(60) {
        for _ in 0..random.pick(&[1, 1, 2]) {
            spoil(&mut records, random);
        }
        if random.chance(70) {
            return finish(text(&records), image);
        }
    }
    let mut bytes = text(&records);
    if damaged {
        for _ in 0..random.pick(&[1, 1, 2]) {
            damage(&mut bytes, random);
        }
    }
    finish(bytes, image)
}

/// How long a buffer to lend for an image of this length.
pub fn room(length: usize, random: &mut Random) -> usize {
    match random.below(20) {
        0 => 0,
        1 => 1,
        2 | 3 => length.saturating_sub(1),
        4 | 5 => length,
        6 => length + 1,
        7 => random.below(length + 1),
        8..=15 => random.pick(&[4_095, 4_096, 4_096, 4_097, 4_098]),
        _ => length + random.below(300),
    }
}

fn finish(bytes: Vec<u8>, image: &[u8]) -> Text {
    Text {
        bytes,
        image_length: image.len(),
    }
}

fn content(random: &mut Random) -> Vec<u8> {
    let length = match random.below(100) {
        0..=59 => random.below(65),
        60..=79 => random.below(600),
        80..=85 => random.between(IMAGE_LIMIT as i64 - 2, IMAGE_LIMIT as i64 + 2) as usize,
        86..=87 => random.between(4_000, 4_400) as usize,
        _ => return image(random),
    };
    random.bytes(length)
}

/// Changes a record; its checksum will be right unless it is what changes.
fn spoil(records: &mut Vec<Record>, random: &mut Random) {
    let at = random.below(records.len());
    let last = records.len() - 1;
    match random.below(14) {
        0 => records[at].checksum_change = random.pick(&[1, 255, 16, 128]),
        1 => {
            let change = random.pick(&[1, 0xFFFF, 0x100, 0x8000, 0x1000]);
            records[at].address = records[at].address.wrapping_add(change);
        }
        2 => records[at].kind = random.pick(&[0, 1, 2, 3, 4, 5, 16, 129, 255]),
        3 => records[at].count = records[at].count.wrapping_add(random.pick(&[1, 255, 16])),
        4 => {
            // A data record without data, in its right place.
            let mut empty = records[at].clone();
            empty.kind = 0;
            empty.count = 0;
            empty.data.clear();
            records.insert(at, empty);
        }
        5 => {
            // An end with data.
            let length = random.between(1, 3) as usize;
            records[last].data = random.bytes(length);
            records[last].count = length as u8;
        }
        6 => {
            records.remove(at);
        }
        7 => {
            let copy = records[at].clone();
            records.insert(at, copy);
        }
        8 => {
            let other = random.below(records.len());
            records.swap(at, other);
        }
        9 | 10 => {
            records[at].line_end = random.pick(&[
                b"" as &[u8],
                b"\r",
                b"\n\r",
                b"\r\r\n",
                b"\n\n",
                b" \n",
                b"\0\n",
                b"\r\n\r\n",
            ]);
        }
        11 => {
            // The records from here on start anew at 0.
            let first = usize::from(records[at].address);
            for record in &mut records[at..last] {
                record.address = record.address.wrapping_sub(first as u16);
            }
        }
        12 => records[last].address = random.pick(&[1, 0x100, 0xFFFF]),
        _ => {
            // The end in the middle of the text.
            let end = records[last].clone();
            records.insert(at, end);
        }
    }
    if records.is_empty() {
        records.push(Record {
            count: 0,
            address: 0,
            kind: 1,
            data: Vec::new(),
            checksum_change: 0,
            line_end: b"\n",
            letters: crate::records::Letters::Upper,
        });
    }
}

/// Changes the characters of a text.
fn damage(text: &mut Vec<u8>, random: &mut Random) {
    // Neighbours of the digits' ranges, and characters easily taken for them.
    const CHARACTERS: &[u8] = b"09AFafGg/:;@`\r\n \0\t\x10\x19\x80\xB0\xC1\xE1\xFFx-+";
    if text.is_empty() {
        return;
    }
    let at = random.below(text.len());
    match random.below(8) {
        0 | 1 => text[at] = random.pick(CHARACTERS),
        2 => text[at] = random.byte(),
        3 => {
            text.remove(at);
        }
        4 => text.insert(at, random.pick(CHARACTERS)),
        5 => text.truncate(at),
        6 => {
            text.pop();
        }
        _ => {
            let more: &[u8] = random.pick(&[
                b"\n" as &[u8],
                b"\r\n",
                b" ",
                b"\0",
                b":00000001FF\n",
                b":0100000001FE\n",
                b":",
                b"\x1A",
            ]);
            text.extend_from_slice(more);
        }
    }
}
