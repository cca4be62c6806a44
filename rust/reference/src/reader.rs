use crate::{verdict, Refusal, IMAGE_LIMIT};

pub(crate) const FORM: u32 = 1;
const CHECKSUM: u32 = 2;
const MEANING: u32 = 3;
const ROOM: u32 = 4;

/// Data bytes decoded together: the length of the usual record.
const BLOCK: usize = 16;

/// Reads a HEX text into `image`: the image's length, or the first fault.
/// What the image does not fill, and after a fault everything, is zero.
pub fn read(text: &[u8], image: &mut [u8]) -> Result<usize, Refusal> {
    let answer = read_records(text, image);
    image[answer.unwrap_or(0)..].fill(0);
    answer
}

/// Reads a HEX text and judges the image at the level. Only an accepted image
/// is left in the buffer.
pub fn load(text: &[u8], level: u32, image: &mut [u8]) -> Result<usize, Refusal> {
    let length = read(text, image)?;
    match verdict(&image[..length], level) {
        Ok(()) => Ok(length),
        Err(refusal) => {
            image[..length].fill(0);
            Err(refusal)
        }
    }
}

fn read_records(mut text: &[u8], image: &mut [u8]) -> Result<usize, Refusal> {
    let mut filled = 0;
    let mut line = 0;
    loop {
        line += 1;
        let refuse = |number| Err(Refusal::with(number, line));

        let record = match split_record(text) {
            Some(record) => record,
            None => return refuse(FORM),
        };
        match take_record(&record, filled, image) {
            Ok(Said::Data { end }) => filled = end,
            // The line end of the last record is the end of the text.
            Ok(Said::End) if record.rest.is_empty() => return Ok(filled),
            Ok(Said::End) => return Err(Refusal::with(FORM, line + 1)),
            Err(number) => return refuse(number),
        }
        text = record.rest;
    }
}

/// Reads one line of a text into `image`, of which so many bytes are filled:
/// what it says, or the number of its fault.
pub(crate) fn read_line(line: &[u8], filled: usize, image: &mut [u8]) -> Result<Said, u32> {
    match split_record(line) {
        Some(record) if record.rest.is_empty() => take_record(&record, filled, image),
        _ => Err(FORM),
    }
}

/// What a good record says.
pub(crate) enum Said {
    /// The image goes on up to here.
    Data { end: usize },
    /// The text ends.
    End,
}

/// Judges a record and puts its data into `image`, of which so many bytes are
/// filled. After a fault, what stands there may be wrong.
#[inline(always)]
fn take_record(record: &Record<'_>, filled: usize, image: &mut [u8]) -> Result<Said, u32> {
    let room = image.len().min(IMAGE_LIMIT);
    let end = filled + record.data.len() / 2;
    let data = if end <= room {
        decode_into(record.data, &mut image[filled..end])
    } else {
        decode(record.data)
    };
    if record.ends.wrong || data.wrong {
        return Err(FORM);
    }
    if record.ends.sum.wrapping_add(data.sum) != 0 {
        return Err(CHECKSUM);
    }
    match record.kind {
        0 if end != filled && usize::from(record.address) == filled => {}
        1 if end == filled && record.address == 0 => return Ok(Said::End),
        _ => return Err(MEANING),
    }
    if end > room {
        return Err(ROOM);
    }
    Ok(Said::Data { end })
}

/// The sum of decoded bytes, and whether a character was no digit.
struct Decoded {
    sum: u8,
    wrong: bool,
}

/// A line whose colon, length and line end are right.
struct Record<'a> {
    address: u16,
    kind: u8,
    data: &'a [u8],
    /// The four bytes before the data and the checksum after it.
    ends: Decoded,
    rest: &'a [u8],
}

#[inline(always)]
fn split_record(text: &[u8]) -> Option<Record<'_>> {
    let head: &[u8; 9] = text.get(..9)?.try_into().ok()?;
    if head[0] != b':' {
        return None;
    }
    let (count, count_wrong) = single_pair(head[1], head[2]);
    let (high, high_wrong) = single_pair(head[3], head[4]);
    let (low, low_wrong) = single_pair(head[5], head[6]);
    let (kind, kind_wrong) = single_pair(head[7], head[8]);

    let (data, after) = split(&text[9..], 2 * usize::from(count))?;
    let (check, check_wrong, rest) = match *after {
        [left, right, b'\n', ref rest @ ..] | [left, right, b'\r', b'\n', ref rest @ ..] => {
            let (check, wrong) = single_pair(left, right);
            (check, wrong, rest)
        }
        _ => return None,
    };
    let sum = [count, high, low, kind, check]
        .iter()
        .fold(0, |sum: u8, byte| sum.wrapping_add(*byte));
    let wrong = (count_wrong | high_wrong | low_wrong | kind_wrong | check_wrong) != 0;
    Some(Record {
        address: u16::from_be_bytes([high, low]),
        kind,
        data,
        ends: Decoded { sum, wrong },
        rest,
    })
}

fn split(text: &[u8], at: usize) -> Option<(&[u8], &[u8])> {
    if at <= text.len() {
        Some(text.split_at(at))
    } else {
        None
    }
}

#[inline(always)]
fn decode_into(digits: &[u8], bytes: &mut [u8]) -> Decoded {
    let mut sum = 0_u8;
    let mut wrong = 0;
    let mut digit_blocks = digits.chunks_exact(2 * BLOCK);
    let mut byte_blocks = bytes.chunks_exact_mut(BLOCK);
    for (digits, bytes) in digit_blocks.by_ref().zip(byte_blocks.by_ref()) {
        for (digits, byte) in digits.chunks_exact(2).zip(bytes) {
            let (value, fault) = pair(digits[0], digits[1]);
            *byte = value;
            sum = sum.wrapping_add(value);
            wrong |= fault;
        }
    }
    let digits = digit_blocks.remainder().chunks_exact(2);
    for (digits, byte) in digits.zip(byte_blocks.into_remainder()) {
        let (value, fault) = single_pair(digits[0], digits[1]);
        *byte = value;
        sum = sum.wrapping_add(value);
        wrong |= fault;
    }
    Decoded {
        sum,
        wrong: wrong != 0,
    }
}

/// Decodes data there is no room for: its form and checksum are judged first.
fn decode(digits: &[u8]) -> Decoded {
    let mut sum = 0_u8;
    let mut wrong = 0;
    for digits in digits.chunks_exact(2) {
        let (value, fault) = pair(digits[0], digits[1]);
        sum = sum.wrapping_add(value);
        wrong |= fault;
    }
    let wrong = wrong != 0;
    Decoded { sum, wrong }
}

/// The value of two digits, and a number other than 0 if one is no digit.
/// Without a branch or a table, so that a block is decoded at once.
#[inline(always)]
fn pair(left: u8, right: u8) -> (u8, u8) {
    let (high, high_wrong) = digit(left);
    let (low, low_wrong) = digit(right);
    (high << 4 | low, high_wrong | low_wrong)
}

#[inline(always)]
fn digit(character: u8) -> (u8, u8) {
    let number = character.wrapping_sub(b'0');
    let letter = (character | 0x20).wrapping_sub(b'a');
    let value = if number < 10 {
        number
    } else {
        letter.wrapping_add(10)
    };
    (value & 15, u8::from(number >= 10) & u8::from(letter >= 6))
}

/// The same by a table, for the single pairs around the data.
#[inline(always)]
fn single_pair(left: u8, right: u8) -> (u8, u8) {
    let (high, low) = (VALUES[usize::from(left)], VALUES[usize::from(right)]);
    (high << 4 | low, (high | low) & 0xF0)
}

/// The value of each character, 0xF0 where it is no digit.
static VALUES: [u8; 256] = {
    let mut values = [0xF0; 256];
    let mut value = 0;
    while value < 16 {
        values[b"0123456789ABCDEF"[value] as usize] = value as u8;
        values[b"0123456789abcdef"[value] as usize] = value as u8;
        value += 1;
    }
    values
};
