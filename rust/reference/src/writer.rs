use crate::{Refusal, IMAGE_LIMIT};

/// Data bytes in every record but perhaps the last.
const RECORD_DATA: usize = 16;
/// Colon, count, address, type, checksum and line end.
const RECORD_FRAME: usize = 12;
const FULL_RECORD: usize = RECORD_FRAME + 2 * RECORD_DATA;
const END: &[u8; RECORD_FRAME] = b":00000001FF\n";

/// Writes the image as a HEX text: the text's length, or a refusal.
/// What the text does not fill, and after a refusal everything, is zero.
pub fn write(image: &[u8], text: &mut [u8]) -> Result<usize, Refusal> {
    let answer = write_records(image, text);
    text[answer.unwrap_or(0)..].fill(0);
    answer
}

fn write_records(image: &[u8], text: &mut [u8]) -> Result<usize, Refusal> {
    if image.len() > IMAGE_LIMIT {
        return Err(Refusal::plain(4));
    }
    let left_over = image.len() % RECORD_DATA;
    let full_records = image.len() / RECORD_DATA * FULL_RECORD;
    let last_record = if left_over == 0 {
        0
    } else {
        RECORD_FRAME + 2 * left_over
    };
    let length = full_records + last_record + RECORD_FRAME;
    let text = match text.get_mut(..length) {
        Some(text) => text,
        None => return Err(Refusal::plain(17)),
    };

    let (full, rest) = text.split_at_mut(full_records);
    let (last, end) = rest.split_at_mut(last_record);
    let mut data = image.chunks_exact(RECORD_DATA);
    let mut address = 0;
    for (record, data) in full.chunks_exact_mut(FULL_RECORD).zip(data.by_ref()) {
        write_record(address, data, record);
        address += RECORD_DATA as u16;
    }
    if left_over != 0 {
        write_record(address, data.remainder(), last);
    }
    end.copy_from_slice(END);
    Ok(length)
}

/// Fills `record`, which has the right length for the data.
#[inline(always)]
fn write_record(address: u16, data: &[u8], record: &mut [u8]) {
    let count = data.len() as u8;
    let [high, low] = address.to_be_bytes();
    let sum = data.iter().fold(count, |sum, byte| sum.wrapping_add(*byte));
    let sum = sum.wrapping_add(high).wrapping_add(low);

    let (head, rest) = record.split_at_mut(9);
    let (digits, tail) = rest.split_at_mut(2 * data.len());
    let [count_left, count_right] = pair(count);
    let [high_left, high_right] = pair(high);
    let [low_left, low_right] = pair(low);
    let [sum_left, sum_right] = pair(sum.wrapping_neg());
    head.copy_from_slice(&[
        b':',
        count_left,
        count_right,
        high_left,
        high_right,
        low_left,
        low_right,
        b'0',
        b'0',
    ]);
    encode(data, digits);
    tail.copy_from_slice(&[sum_left, sum_right, b'\n']);
}

fn encode(data: &[u8], digits: &mut [u8]) {
    for (byte, digits) in data.iter().zip(digits.chunks_exact_mut(2)) {
        digits.copy_from_slice(&pair(*byte));
    }
}

#[inline(always)]
fn pair(byte: u8) -> [u8; 2] {
    [digit(byte >> 4), digit(byte & 15)]
}

/// Without a branch or a table, so that a record can be encoded at once.
#[inline(always)]
fn digit(value: u8) -> u8 {
    if value < 10 {
        b'0' + value
    } else {
        b'A' - 10 + value
    }
}
