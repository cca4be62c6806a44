//! The fields of each body and the values worth trying in them: every limit,
//! one less and one more, and the ends of the number itself.

use crate::random::Random;

/// A field's place, its bytes and its edges (as their low bytes).
struct Field {
    at: usize,
    bytes: usize,
    edges: &'static [i64],
}

const fn field(at: usize, bytes: usize, edges: &'static [i64]) -> Field {
    Field { at, bytes, edges }
}

const COEFFICIENT: &[i64] = &[
    -(1 << 34) - 1,
    -(1 << 34),
    -(1 << 34) + 1,
    (1 << 34) - 1,
    1 << 34,
    (1 << 34) + 1,
    0,
    i64::MIN,
    i64::MAX,
    -(1 << 35),
    1 << 35,
];
const ALGORITHM: &[i64] = &[0, 1, 2, 255];
const ORDER: &[i64] = &[0, 1, 2, 3, 4, 5, 255];
const MULTIPLIER: &[i64] = &[0, 1, 2, (1 << 30) - 1, 1 << 30, (1 << 30) + 1, -1];
const OFFSET: &[i64] = &[
    0,
    1,
    6_553_599_999,
    6_553_600_000,
    6_553_600_001,
    1 << 32,
    i64::MIN,
    -1,
];
const WHOLE: &[i64] = &[-(1 << 31), -(1 << 31) + 1, -1, 0, 1, (1 << 31) - 1];
const NOTHING: &[i64] = &[0, 1, 128, 255];

const IDENTITY: &[Field] = &[
    field(4, 2, &[0, 1979, 1980, 2000, 2099, 2100, 65_535]),
    field(6, 1, &[0, 1, 2, 4, 12, 13, 255]),
    field(7, 1, &[0, 1, 28, 29, 30, 31, 32, 255]),
    field(8, 4, WHOLE),
    field(12, 4, WHOLE),
    field(16, 4, WHOLE),
    field(20, 4, WHOLE),
];
const SET: &[Field] = &[
    field(0, 1, ALGORITHM),
    field(1, 1, ALGORITHM),
    field(2, 1, ORDER),
    field(3, 1, ORDER),
    field(4, 4, MULTIPLIER),
    field(8, 8, OFFSET),
    field(16, 4, MULTIPLIER),
    field(20, 8, OFFSET),
];
const TRIM: &[Field] = &[
    field(0, 1, &[0, 1, 2, 3, 4, 255]),
    field(1, 1, NOTHING),
    field(2, 1, NOTHING),
    field(3, 1, NOTHING),
    field(4, 4, &[0, 1, 2, (1 << 31) - 1, 1 << 31, (1 << 31) + 1, -1]),
    field(
        8,
        8,
        &[
            -(1 << 40) - 1,
            -(1 << 40),
            0,
            1 << 40,
            (1 << 40) + 1,
            i64::MIN,
            i64::MAX,
        ],
    ),
];
const NOTE: &[i64] = &[0, 31, 32, 126, 127, 128, 255];

/// Puts an edge into some field of a body of a known kind.
pub fn edge(kind: u8, body: &mut [u8], random: &mut Random) {
    let coefficients = body.len().saturating_sub(28) / 8;
    match kind {
        1 if random.chance(30) => neighbour(body, random),
        1 if random.chance(40) => month_end(body, random),
        1 => edge_of(IDENTITY, body, random),
        2 | 3 if coefficients > 0 && random.chance(40) => {
            let at = 28 + 8 * random.below(coefficients);
            put(body, at, 8, random.pick(COEFFICIENT));
        }
        2 | 3 => edge_of(SET, body, random),
        4 => edge_of(TRIM, body, random),
        129 if !body.is_empty() => {
            let at = random.below(body.len());
            put(body, at, 1, random.pick(NOTE));
        }
        _ => {}
    }
}

fn edge_of(fields: &[Field], body: &mut [u8], random: &mut Random) {
    let field = &fields[random.below(fields.len())];
    put(body, field.at, field.bytes, random.pick(field.edges));
}

/// Puts a day about the end of a month into the identity.
fn month_end(body: &mut [u8], random: &mut Random) {
    let year = random.pick(&[
        1980, 1981, 1982, 1983, 1999, 2000, 2001, 2003, 2004, 2098, 2099,
    ]);
    let (month, day) = match random.below(2) {
        0 => (2, random.between(28, 30)),
        _ => (random.between(1, 12), random.between(30, 32)),
    };
    put(body, 4, 2, year);
    put(body, 6, 1, month);
    put(body, 7, 1, day);
}

/// Puts a minimum of the identity beside its maximum.
fn neighbour(body: &mut [u8], random: &mut Random) {
    let at = random.pick(&[8, 16]);
    if let Some(bytes) = body.get(at + 4..at + 8) {
        let maximum = i32::from_le_bytes([bytes[0], bytes[1], bytes[2], bytes[3]]);
        let minimum = i64::from(maximum) + random.between(-1, 1);
        put(body, at, 4, minimum);
    }
}

fn put(body: &mut [u8], at: usize, bytes: usize, value: i64) {
    if let Some(place) = body.get_mut(at..at + bytes) {
        place.copy_from_slice(&value.to_le_bytes()[..bytes]);
    }
}
