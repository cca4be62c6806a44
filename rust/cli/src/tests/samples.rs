//! Texts and images to test by.

use crate::levels;
use crate::status::Status;
use crate::words::words;
use bjorkneve::{LARGEST_IMAGE, LONGEST_WRITTEN_TEXT};
use std::fs;

/// An example of the project, by its name without `.hex`.
pub fn example(name: &str) -> Vec<u8> {
    let path = format!("{}/../../examples/{name}.hex", env!("CARGO_MANIFEST_DIR"));
    fs::read(&path).unwrap_or_else(|error| panic!("{path}: {error}"))
}

/// The image of a good text.
pub fn image_of(text: &[u8]) -> Vec<u8> {
    let mut buffer = [0; LARGEST_IMAGE];
    bjorkneve::read(text, &mut buffer)
        .expect("a good text")
        .to_vec()
}

/// The text of an image.
pub fn text_of(image: &[u8]) -> Vec<u8> {
    let mut buffer = [0; LONGEST_WRITTEN_TEXT];
    bjorkneve::write(image, &mut buffer)
        .expect("an image")
        .to_vec()
}

/// The text of the typical gauge with these sections in place of its own, or beside them.
pub fn text_with(sections: &[(u32, Vec<u8>)]) -> Vec<u8> {
    let typical = image_of(&example("typical"));
    let body = |kind| {
        let changed = sections.iter().find(|(changed, _)| *changed == kind);
        let typical = || bjorkneve::find(&typical, kind).map(<[u8]>::to_vec);
        changed.map(|(_, body)| body.clone()).or_else(typical)
    };
    let (kinds, bodies): (Vec<u32>, Vec<Vec<u8>>) = (1..=255)
        .filter_map(|kind| Some((kind, body(kind)?)))
        .unzip();
    build(&kinds, &bodies)
}

/// The text of an image of these sections.
pub fn build(kinds: &[u32], bodies: &[Vec<u8>]) -> Vec<u8> {
    let lengths: Vec<usize> = bodies.iter().map(Vec::len).collect();
    let mut buffer = [0; LARGEST_IMAGE];
    text_of(
        bjorkneve::build(kinds, &lengths, &bodies.concat(), &mut buffer).expect("good sections"),
    )
}

/// The body of a kind of the typical gauge, with one byte changed.
pub fn changed_body(kind: u32, place: usize, byte: u8) -> Vec<u8> {
    let typical = image_of(&example("typical"));
    let mut body = bjorkneve::find(&typical, kind).expect("a section").to_vec();
    body[place] = byte;
    body
}

/// A record with a right checksum.
pub fn record(address: u16, kind: u8, data: &[u8]) -> String {
    let [high, low] = address.to_be_bytes();
    let mut bytes = vec![data.len() as u8, high, low, kind];
    bytes.extend_from_slice(data);
    let sum = bytes.iter().fold(0_u8, |sum, byte| sum.wrapping_add(*byte));
    bytes.push(sum.wrapping_neg());
    let digits: String = bytes.iter().map(|byte| format!("{byte:02X}")).collect();
    format!(":{digits}\n")
}

/// What `words` tells of a text, of every level, as of a file named `sample`.
pub fn told(text: &[u8]) -> (String, Status) {
    let mut page = Vec::new();
    let status = words(&mut page, "sample", text, &levels::all()).expect("a page in memory");
    (String::from_utf8(page).expect("words"), status)
}
