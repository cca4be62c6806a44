//! A text as the lines that a port hands on, and what can go wrong with them
//! on the way.

use crate::random::Random;

/// The lines of a text, each with its LF; the last may lack it.
pub fn lines(text: &[u8]) -> Vec<Vec<u8>> {
    text.split_inclusive(|byte| *byte == b'\n')
        .map(<[u8]>::to_vec)
        .collect()
}

/// Whether these are the lines of all of them joined.
pub fn are_lines(pieces: &[Vec<u8>]) -> bool {
    let lf = |piece: &Vec<u8>| piece.iter().position(|byte| *byte == b'\n');
    let whole = |piece: &Vec<u8>| lf(piece).map_or(false, |at| at + 1 == piece.len());
    match pieces.split_last() {
        Some((last, before)) => {
            before.iter().all(whole) && (whole(last) || lf(last).is_none() && !last.is_empty())
        }
        None => true,
    }
}

/// Loses, doubles, exchanges, joins, splits or changes lines.
pub fn disturb(pieces: &mut Vec<Vec<u8>>, random: &mut Random) {
    if pieces.is_empty() {
        return;
    }
    let at = random.below(pieces.len());
    match random.below(12) {
        0 => {
            pieces.remove(at);
        }
        1 => pieces.insert(at, pieces[at].clone()),
        2 => {
            let other = random.below(pieces.len());
            pieces.swap(at, other);
        }
        3 if at > 0 => {
            let second = pieces.remove(at);
            pieces[at - 1].extend(second);
        }
        4 => {
            let place = random.below(pieces[at].len() + 1);
            let second = pieces[at].split_off(place);
            pieces.insert(at + 1, second);
        }
        5 => {
            pieces[at].pop();
        }
        6 => {
            // as a port with the other line end hands them on
            for piece in pieces.iter_mut() {
                if piece.ends_with(b"\n") && !piece.ends_with(b"\r\n") {
                    piece.insert(piece.len() - 1, b'\r');
                }
            }
        }
        7 => pieces.insert(at, Vec::new()),
        8 => pieces.insert(at, random.pick(&[b"\n" as &[u8], b"\r\n"]).to_vec()),
        9 => {
            // longer than any good line
            let length = 524 + random.below(200);
            let mut long = vec![b'0'; length];
            long[0] = b':';
            long.push(b'\n');
            pieces.insert(at, long);
        }
        10 => pieces.truncate(at),
        _ => {
            let place = random.below(pieces[at].len().max(1));
            if let Some(byte) = pieces[at].get_mut(place) {
                *byte = random.byte();
            }
        }
    }
}
