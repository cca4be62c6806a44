//! Lists of contents lines for the builder.

use crate::random::Random;
use crate::IMAGE_LIMIT;

pub struct Lines {
    pub kinds: Vec<u32>,
    pub lengths: Vec<usize>,
    pub bodies: Vec<u8>,
}

impl Lines {
    /// The length the image would have.
    pub fn image_length(&self) -> usize {
        2 + 8 * self.kinds.len() + self.bodies.len()
    }
}

/// Lines of any sort; about half are good.
pub fn lines(random: &mut Random) -> Lines {
    let mut lines = good_lines(random);
    if random.chance(45) {
        for _ in 0..random.pick(&[1, 1, 2]) {
            spoil(&mut lines, random);
        }
    }
    lines
}

fn good_lines(random: &mut Random) -> Lines {
    let count = match random.below(6) {
        0 => random.pick(&[1, 16]),
        _ => random.between(1, 16) as usize,
    };
    let mut kinds: Vec<u32> = Vec::new();
    while kinds.len() < count {
        let kind = match random.below(4) {
            0 => random.pick(&[1, 2, 3, 4, 127, 128, 129, 255]),
            _ => random.between(1, 255) as u32,
        };
        if !kinds.contains(&kind) {
            kinds.push(kind);
        }
    }
    kinds.sort_unstable();
    let mut lengths: Vec<usize> = (0..count)
        .map(|_| match random.below(4) {
            0 => 0,
            1 => random.below(200),
            _ => random.below(30),
        })
        .collect();
    if random.chance(15) {
        // As long as an image may be, or one more or less.
        let whole = random.pick(&[IMAGE_LIMIT - 1, IMAGE_LIMIT, IMAGE_LIMIT, IMAGE_LIMIT + 1]);
        let head = 2 + 8 * count;
        let others: usize = lengths[1..].iter().sum();
        if head + others <= whole {
            lengths[0] = whole - head - others;
        }
    }
    let bodies = random.bytes(lengths.iter().sum());
    Lines {
        kinds,
        lengths,
        bodies,
    }
}

fn spoil(lines: &mut Lines, random: &mut Random) {
    let count = lines.kinds.len();
    let at = random.below(count.max(1));
    match random.below(12) {
        0 if count > 1 => lines.kinds[at] = lines.kinds[at.max(1) - 1],
        1 if count > 0 => {
            lines.kinds[at] = random.pick(&[0, 256, 257, 65_537, u32::MAX, 1 << 31]);
        }
        2 if count > 0 => lines.kinds[count - 1] = random.pick(&[255, 256, 257, 512 + 129]),
        3 if count > 0 => {
            let other = random.below(count);
            lines.kinds.swap(at, other);
        }
        4 => {
            lines.kinds.clear();
            lines.lengths.clear();
            if random.chance(50) {
                lines.bodies.clear();
            }
        }
        5 => {
            // Over sixteen, and otherwise good.
            lines.kinds = (1..=random.pick(&[16, 17, 18, 255])).collect();
            lines.lengths = vec![0; lines.kinds.len()];
            lines.lengths[0] = lines.bodies.len();
        }
        6 if !lines.lengths.is_empty() => {
            let at = random.below(lines.lengths.len());
            let change = random.pick(&[1, usize::MAX, 65_536, usize::MAX / 2 + 1, 256]);
            lines.lengths[at] = lines.lengths[at].wrapping_add(change);
        }
        7 if lines.lengths.len() > 1 => {
            // The lengths add up to the bodies only where numbers wrap.
            let last = lines.lengths.len() - 1;
            let step = random.pick(&[1, 9, usize::MAX / 2 + 1]);
            lines.lengths[0] = lines.lengths[0].wrapping_add(step);
            lines.lengths[last] = lines.lengths[last].wrapping_sub(step);
        }
        8 => lines.bodies.push(random.byte()),
        9 => {
            lines.bodies.pop();
        }
        10 => lines.lengths.push(random.below(2)),
        _ => {
            lines.kinds.pop();
        }
    }
}
