//! Damage to the bytes of an image.

use crate::random::Random;
use crate::sections::{lines, mend_sums, number};

/// Damages the image in one way; sometimes the sums are righted after it, so
/// that the fault behind the sum is reached.
pub fn damage(image: &mut Vec<u8>, random: &mut Random) {
    match random.below(14) {
        0..=3 => change_byte(image, random),
        4 => cut(image, random),
        5 => {
            let more = random.between(1, 9) as usize;
            image.extend(random.bytes(more));
        }
        6 => put(image, 0, random.pick(&[0, 0x50, 0x52, 0xD1, 0x15])),
        7 => {
            let count = image.get(1).copied().unwrap_or(0);
            let edges = [
                0,
                1,
                16,
                17,
                255,
                count.wrapping_sub(1),
                count.wrapping_add(1),
            ];
            put(image, 1, random.pick(&edges));
        }
        8 | 9 => change_line(image, random),
        10 => swap_lines(image, random),
        11 => resize_body(image, random),
        12 => wrap_length(image, random),
        _ => change_sum(image, random),
    }
    if random.chance(35) {
        mend_sums(image);
    }
}

/// Bytes of no plan at all, or of none past the first two.
pub fn garbage(random: &mut Random) -> Vec<u8> {
    let length = match random.below(4) {
        0 => random.below(4),
        1 => random.pick(&[4_095, 4_096, 4_097, 4_098]),
        _ => random.below(200),
    };
    let mut image = random.bytes(length);
    if random.chance(70) {
        put(&mut image, 0, 0x51);
    }
    if random.chance(50) {
        put(&mut image, 1, random.between(0, 18) as u8);
    }
    image
}

fn change_byte(image: &mut [u8], random: &mut Random) {
    if !image.is_empty() {
        let at = random.below(image.len());
        image[at] ^= match random.below(2) {
            0 => 1 << random.below(8),
            _ => random.byte() | 1,
        };
    }
}

fn cut(image: &mut Vec<u8>, random: &mut Random) {
    let length = match random.below(3) {
        0 => random.below(image.len() + 1),
        1 => image.len().saturating_sub(1),
        _ => random.below(12).min(image.len()),
    };
    image.truncate(length);
}

/// Puts an edge into the kind, the zero byte, the offset, or the length.
fn change_line(image: &mut [u8], random: &mut Random) {
    if lines(image) == 0 {
        return;
    }
    let line = random.below(lines(image));
    let at = 2 + 8 * line;
    match random.below(5) {
        0 if line > 0 => image[at] = image[at - 8],
        0 => image[at] = 0,
        1 => image[at] = image[at].wrapping_add(random.pick(&[1, 255])),
        2 => image[at + 1] = random.pick(&[1, 128, 255]),
        3 => add(image, at + 2, random.pick(&[1, -1, 256, -256])),
        _ => add(image, at + 4, random.pick(&[1, -1, 256, -256])),
    }
}

fn swap_lines(image: &mut [u8], random: &mut Random) {
    let count = lines(image);
    if count > 1 {
        let (one, other) = (random.below(count), random.below(count));
        for byte in 0..8 {
            image.swap(2 + 8 * one + byte, 2 + 8 * other + byte);
        }
    }
}

/// Changes a length and all offsets after it, so that only the end is wrong.
fn resize_body(image: &mut [u8], random: &mut Random) {
    let count = lines(image);
    if count == 0 {
        return;
    }
    let change = random.pick(&[1, -1, 8, 256, 4_096, 30_000]);
    let line = random.below(count);
    add(image, 2 + 8 * line + 4, change);
    for later in line + 1..count {
        add(image, 2 + 8 * later + 2, change);
    }
}

/// Makes the last two bodies overrun the image, so that their ends are right
/// only in the low two bytes.
fn wrap_length(image: &mut [u8], random: &mut Random) {
    let count = lines(image);
    if count < 2 {
        return;
    }
    let last = 2 + 8 * (count - 1);
    let start = number(image, last - 8 + 2);
    let room = image.len().saturating_sub(start) as i64;
    let length = random.between(room + 1, 65_535) as usize;
    set(image, last - 8 + 4, length);
    set(image, last + 2, start + length);
    set(image, last + 4, image.len() + 2 * 65_536 - start - length);
}

fn change_sum(image: &mut [u8], random: &mut Random) {
    if lines(image) > 0 {
        let at = 2 + 8 * random.below(lines(image)) + 6;
        add(image, at, random.pick(&[1, -1, 256, -256, 255]));
    }
}

fn add(image: &mut [u8], at: usize, change: i32) {
    let value = number(image, at) as i32 + change;
    set(image, at, value as usize);
}

/// Writes the low two bytes of a value.
fn set(image: &mut [u8], at: usize, value: usize) {
    image[at..at + 2].copy_from_slice(&(value as u16).to_le_bytes());
}

fn put(image: &mut [u8], at: usize, value: u8) {
    if let Some(place) = image.get_mut(at) {
        *place = value;
    }
}
