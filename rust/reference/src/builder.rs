use crate::layout::body_sum;
use crate::{Refusal, HEAD_BYTES, IMAGE_LIMIT, IMAGE_SIGN, LINE_BYTES, LINE_LIMIT};

/// Writes the image whose line `i` has `kinds[i]` and `lengths[i]`, from the
/// joined bodies: its length, or a refusal. What the image does not fill, and
/// after a refusal everything, is zero.
pub fn build(
    kinds: &[u32],
    lengths: &[usize],
    bodies: &[u8],
    image: &mut [u8],
) -> Result<usize, Refusal> {
    let answer = write_sections(kinds, lengths, bodies, image);
    image[answer.unwrap_or(0)..].fill(0);
    answer
}

fn write_sections(
    kinds: &[u32],
    lengths: &[usize],
    bodies: &[u8],
    image: &mut [u8],
) -> Result<usize, Refusal> {
    let count = kinds.len();
    if count == 0 || count > LINE_LIMIT || count != lengths.len() || !rising(kinds) {
        return Err(Refusal::plain(18));
    }
    // No slice is as long as the largest number, so a sum held there is wrong.
    let total = lengths
        .iter()
        .fold(0, |total: usize, length| total.saturating_add(*length));
    let head = HEAD_BYTES + LINE_BYTES * count;
    if total != bodies.len() || total > IMAGE_LIMIT - head {
        return Err(Refusal::plain(19));
    }
    let image = match image.get_mut(..head + total) {
        Some(image) => image,
        None => return Err(Refusal::plain(17)),
    };

    let (contents, joined) = image.split_at_mut(head);
    joined.copy_from_slice(bodies);
    contents[0] = IMAGE_SIGN;
    contents[1] = count as u8;
    let mut offset = head as u16;
    let mut rest = bodies;
    let lines = contents[HEAD_BYTES..].chunks_exact_mut(LINE_BYTES);
    for ((line, kind), length) in lines.zip(kinds).zip(lengths) {
        let (body, after) = rest.split_at(*length);
        let [offset_low, offset_high] = offset.to_le_bytes();
        let [length_low, length_high] = (*length as u16).to_le_bytes();
        let [sum_low, sum_high] = body_sum(body).to_le_bytes();
        line.copy_from_slice(&[
            *kind as u8,
            0,
            offset_low,
            offset_high,
            length_low,
            length_high,
            sum_low,
            sum_high,
        ]);
        offset += *length as u16;
        rest = after;
    }
    Ok(head + total)
}

/// Strictly rising within 1 to 255.
fn rising(kinds: &[u32]) -> bool {
    let mut last = 0;
    kinds.iter().all(|kind| {
        let rises = *kind > last && *kind <= 255;
        last = *kind;
        rises
    })
}
