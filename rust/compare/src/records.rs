//! A HEX text as its records.

use crate::random::Random;

/// A record; the checksum is righted when it is written out, then changed by
/// `checksum_change`.
#[derive(Clone)]
pub struct Record {
    pub count: u8,
    pub address: u16,
    pub kind: u8,
    pub data: Vec<u8>,
    pub checksum_change: u8,
    pub line_end: &'static [u8],
    pub letters: Letters,
}

#[derive(Clone, Copy)]
pub enum Letters {
    Upper,
    Lower,
    /// A digit is lower where its bit is set.
    Mixed(u64),
}

impl Record {
    /// A record in upper case, with LF.
    pub fn new(address: usize, kind: u8, data: &[u8]) -> Self {
        Self {
            count: data.len() as u8,
            address: address as u16,
            kind,
            data: data.to_vec(),
            checksum_change: 0,
            line_end: b"\n",
            letters: Letters::Upper,
        }
    }

    fn write(&self, text: &mut Vec<u8>) {
        let [high, low] = self.address.to_be_bytes();
        let mut bytes = vec![self.count, high, low, self.kind];
        bytes.extend_from_slice(&self.data);
        let sum = bytes.iter().fold(0_u8, |sum, byte| sum.wrapping_add(*byte));
        bytes.push(sum.wrapping_neg().wrapping_add(self.checksum_change));
        text.push(b':');
        for (at, byte) in bytes.iter().enumerate() {
            for (half, value) in [byte >> 4, byte & 15].iter().enumerate() {
                let lower = match self.letters {
                    Letters::Upper => false,
                    Letters::Lower => true,
                    Letters::Mixed(bits) => bits >> ((2 * at + half) % 64) & 1 == 1,
                };
                text.push(digit(*value, lower));
            }
        }
        text.extend_from_slice(self.line_end);
    }
}

/// The records of an image in a random good style, the end among them.
pub fn records(image: &[u8], random: &mut Random) -> Vec<Record> {
    let lengths: &[i64] = random.pick(&[
        &[16, 16][..],
        &[1, 4],
        &[1, 40],
        &[32, 32],
        &[100, 255],
        &[255, 255],
    ]);
    let mixed = Letters::Mixed(random.number());
    let letters = random.pick(&[Letters::Upper, Letters::Lower, mixed]);
    let line_ends: &[&'static [u8]] =
        random.pick(&[&[b"\n" as &[u8]][..], &[b"\r\n"], &[b"\n", b"\r\n"]]);
    let mut records = Vec::new();
    let mut at = 0;
    while at < image.len() {
        let length = random.between(lengths[0], lengths[1]) as usize;
        let end = image.len().min(at + length);
        records.push(Record::new(at, 0, &image[at..end]));
        at = end;
    }
    records.push(Record::new(0, 1, &[]));
    for record in &mut records {
        record.letters = letters;
        record.line_end = random.pick(line_ends);
    }
    records
}

/// The text of the records.
pub fn text(records: &[Record]) -> Vec<u8> {
    let mut text = Vec::new();
    for record in records {
        record.write(&mut text);
    }
    text
}

/// The digit of a value from 0 to 15.
pub fn digit(value: u8, lower: bool) -> u8 {
    match value {
        0..=9 => b'0' + value,
        _ if lower => b'a' + value - 10,
        _ => b'A' + value - 10,
    }
}
