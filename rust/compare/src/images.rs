//! Images: good ones, ones with a wrong body, and damaged ones.

use crate::bodies::{identity, limits, note, random_trim};
use crate::damage::{damage, garbage};
use crate::fields::edge;
use crate::random::Random;
use crate::sections::Sections;
use crate::sets::{overfull_set, random_set};
use crate::IMAGE_LIMIT;

/// An image of any sort.
pub fn image(random: &mut Random) -> Vec<u8> {
    if random.chance(3) {
        return garbage(random);
    }
    let mut sections = sections(random);
    if random.chance(45) {
        for _ in 0..random.between(1, 2) {
            spoil(&mut sections, random);
        }
    }
    let mut image = sections.image();
    if random.chance(35) {
        for _ in 0..random.between(1, 2) {
            damage(&mut image, random);
        }
    }
    image
}

/// Sections of a good layout; sometimes a kind is missing or unknown, or the
/// image is as long as may be, or one longer.
pub fn sections(random: &mut Random) -> Sections {
    let mut sections = Sections::default();
    for kind in [1, 2, 3] {
        if !random.chance(4) {
            sections.0.push((kind, good_body(kind, random)));
        }
    }
    for kind in [4, 129] {
        if random.chance(40) {
            sections.0.push((kind, good_body(kind, random)));
        }
    }
    if random.chance(8) {
        let kind = random.pick(&[5, 6, 126, 127, 40]);
        let length = random.below(20);
        sections.0.push((kind, random.bytes(length)));
    }
    if random.chance(30) {
        let more = random.pick(&[1, 2, 3, 6, 30]);
        for _ in 0..more {
            let any = random.between(131, 253) as u8;
            let kind = random.pick(&[128, 130, 254, any, any, any]);
            let length = random.below(30);
            sections.0.push((kind, random.bytes(length)));
        }
    }
    sections.0.sort_by_key(|(kind, _)| *kind);
    sections.0.dedup_by_key(|(kind, _)| *kind);
    let most = random.pick(&[16, 16, 16, 17]);
    sections.0.truncate(most);
    if random.chance(5) && sections.0.len() < 16 {
        let whole = random.pick(&[IMAGE_LIMIT - 1, IMAGE_LIMIT, IMAGE_LIMIT + 1]);
        let length = whole - 8 - sections.length();
        sections.0.push((255, random.bytes(length)));
    }
    sections
}

fn good_body(kind: u8, random: &mut Random) -> Vec<u8> {
    match kind {
        1 => identity(limits(random), random),
        2 | 3 => random_set(random).body(),
        4 => random_trim(random),
        _ => note(random),
    }
}

/// Changes a body; its sum will be right.
pub fn spoil(sections: &mut Sections, random: &mut Random) {
    let known: Vec<usize> = (0..sections.0.len())
        .filter(|at| matches!(sections.0[*at].0, 1..=4 | 129))
        .collect();
    if known.is_empty() {
        return;
    }
    // The last is a trim or a note, if there is one.
    let at = match random.below(3) {
        0 => known[known.len() - 1],
        _ => random.pick(&known),
    };
    let (kind, body) = &mut sections.0[at];
    match random.below(10) {
        0 => body.push(random.byte()),
        1 => {
            body.pop();
        }
        2 => {
            let length = match kind {
                129 => random.pick(&[0, 1, 64, 65, 66]),
                _ => random.pick(&[0, 8, 16, 24, 28, body.len() + 8]),
            };
            body.resize(length, b' ');
        }
        3 if !body.is_empty() => {
            let at = random.below(body.len());
            body[at] = random.byte();
        }
        4 if matches!(kind, 2 | 3) => *body = overfull_set(random).body(),
        _ => edge(*kind, body, random),
    }
}
