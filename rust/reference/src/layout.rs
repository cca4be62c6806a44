use crate::{Refusal, HEAD_BYTES, IMAGE_LIMIT, IMAGE_SIGN, LINE_BYTES, LINE_LIMIT};
use core::ops::Range;

/// Judges the contents and the body sums (numbers 5 to 8).
pub fn layout(image: &[u8]) -> Result<(), Refusal> {
    let contents = contents(image)?;
    let bodies = HEAD_BYTES + contents.len();

    let mut kind = 0;
    let mut end = bodies;
    for (number, line) in (0..).zip(contents.chunks_exact(LINE_BYTES)) {
        let line = Line::parse(line);
        // Rising from 0 keeps every kind at 1 or more.
        if line.kind <= kind || line.zero != 0 || line.offset != end {
            return Err(Refusal::with(7, number));
        }
        kind = line.kind;
        end += line.length;
    }
    // A body that overruns the image breaks no line of its own: each rule of a
    // line holds, and only the last end differs from the image's.
    if end != image.len() {
        return Err(Refusal::with(7, (contents.len() / LINE_BYTES) as u64));
    }

    let mut rest = &image[bodies..];
    for (number, line) in (0..).zip(contents.chunks_exact(LINE_BYTES)) {
        let line = Line::parse(line);
        let (body, after) = rest.split_at(line.length);
        if body_sum(body) != line.sum {
            return Err(Refusal::with(8, number));
        }
        rest = after;
    }
    Ok(())
}

/// Where the body of the kind stands; nothing for an ill-laid image or an
/// absent kind.
pub fn find(image: &[u8], kind: u32) -> Option<Range<usize>> {
    layout(image).ok()?;
    let line = contents(image)
        .ok()?
        .chunks_exact(LINE_BYTES)
        .map(Line::parse)
        .find(|line| u32::from(line.kind) == kind)?;
    Some(line.offset..line.offset + line.length)
}

/// The kinds and bodies of an image whose layout is good.
pub(crate) fn sections(image: &[u8]) -> impl Iterator<Item = (u8, &[u8])> {
    let contents = contents(image).unwrap_or(&[]);
    let mut rest = image.get(HEAD_BYTES + contents.len()..).unwrap_or(&[]);
    contents.chunks_exact(LINE_BYTES).map(move |line| {
        let line = Line::parse(line);
        let (body, after) = rest.split_at(line.length);
        rest = after;
        (line.kind, body)
    })
}

/// The sum of the body's bytes modulo 65,536.
#[inline]
pub(crate) fn body_sum(body: &[u8]) -> u16 {
    body.iter()
        .fold(0, |sum: u16, byte| sum.wrapping_add(u16::from(*byte)))
}

/// The bytes of the contents lines (numbers 5 and 6).
fn contents(image: &[u8]) -> Result<&[u8], Refusal> {
    if image.len() < HEAD_BYTES || image.len() > IMAGE_LIMIT || image[0] != IMAGE_SIGN {
        return Err(Refusal::plain(5));
    }
    let count = usize::from(image[1]);
    if count == 0 || count > LINE_LIMIT {
        return Err(Refusal::plain(6));
    }
    image
        .get(HEAD_BYTES..HEAD_BYTES + LINE_BYTES * count)
        .ok_or(Refusal::plain(6))
}

struct Line {
    kind: u8,
    zero: u8,
    offset: usize,
    length: usize,
    sum: u16,
}

impl Line {
    #[inline(always)]
    fn parse(bytes: &[u8]) -> Self {
        Self {
            kind: bytes[0],
            zero: bytes[1],
            offset: usize::from(u16::from_le_bytes([bytes[2], bytes[3]])),
            length: usize::from(u16::from_le_bytes([bytes[4], bytes[5]])),
            sum: u16::from_le_bytes([bytes[6], bytes[7]]),
        }
    }
}
