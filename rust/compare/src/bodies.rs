//! Good bodies of the known kinds but the sets.

use crate::random::Random;

/// The four limits of an identity: lowest and highest temperature, lowest and
/// highest pressure.
pub type Limits = [i32; 4];

/// An identity with a random real date.
pub fn identity(limits: Limits, random: &mut Random) -> Vec<u8> {
    let year = match random.below(4) {
        0 => random.pick(&[1980, 1999, 2000, 2004, 2099]),
        _ => random.between(1980, 2099) as u16,
    };
    let month = match random.below(4) {
        0 => 2,
        _ => random.between(1, 12) as u8,
    };
    let last = days(year, month);
    let day = match random.below(3) {
        0 => last,
        _ => random.between(1, i64::from(last)) as u8,
    };
    let mut body = random.bytes(4);
    body.extend_from_slice(&year.to_le_bytes());
    body.extend_from_slice(&[month, day]);
    for limit in limits {
        body.extend_from_slice(&limit.to_le_bytes());
    }
    body
}

/// Random limits, no minimum above its maximum.
pub fn limits(random: &mut Random) -> Limits {
    let mut limits = [0; 4];
    for pair in limits.chunks_exact_mut(2) {
        let one = random.signed(31).clamp(-(1 << 31), (1 << 31) - 1) as i32;
        let other = random.signed(31).clamp(-(1 << 31), (1 << 31) - 1) as i32;
        pair[0] = one.min(other);
        pair[1] = one.max(other);
    }
    limits
}

/// A trim.
pub fn trim(unit: u8, span: u32, zero: i64) -> Vec<u8> {
    let mut body = vec![unit, 0, 0, 0];
    body.extend_from_slice(&span.to_le_bytes());
    body.extend_from_slice(&zero.to_le_bytes());
    body
}

/// A trim of random fields.
pub fn random_trim(random: &mut Random) -> Vec<u8> {
    let unit = random.between(1, 3) as u8;
    let span = random.signed(31).unsigned_abs().max(1) as u32;
    let zero = random.signed(40);
    trim(unit, span, zero)
}

/// A note.
pub fn note(random: &mut Random) -> Vec<u8> {
    let length = match random.below(3) {
        0 => random.pick(&[1, 2, 63, 64]),
        _ => random.between(1, 64),
    };
    (0..length).map(|_| random.between(32, 126) as u8).collect()
}

fn days(year: u16, month: u8) -> u8 {
    let leap = year % 4 == 0 && (year % 100 != 0 || year % 400 == 0);
    match month {
        2 if leap => 29,
        2 => 28,
        4 | 6 | 9 | 11 => 30,
        _ => 31,
    }
}
