//! A line of a text with carets under its fault.

use std::ops::Range;

/// Characters of the longest line that is shown whole.
const WINDOW: usize = 80;

/// The line and, below it, carets under what is pointed at; of a long line the
/// part around the first caret.
pub fn shown(line: &[u8], pointed: &Range<usize>) -> [String; 2] {
    let first = if line.len() <= WINDOW {
        0
    } else {
        pointed
            .start
            .saturating_sub(WINDOW / 2)
            .min(line.len() - WINDOW)
    };
    let last = line.len().min(first + WINDOW);
    let mut characters = String::new();
    let mut carets = String::new();
    let mut put = |part: &str, caret: char| {
        characters.push_str(part);
        carets.extend(part.chars().map(|_| caret));
    };
    if first > 0 {
        put("..", ' ');
    }
    for (place, character) in (first..).zip(&line[first..last]) {
        let caret = if pointed.contains(&place) { '^' } else { ' ' };
        put(&printable(*character), caret);
    }
    if last < line.len() {
        put("..", ' ');
    } else if pointed.contains(&last) {
        carets.push('^');
    }
    [characters, carets.trim_end().into()]
}

fn printable(character: u8) -> String {
    match character {
        0x20..=0x7E => (character as char).into(),
        _ => format!("\\x{character:02X}"),
    }
}

#[cfg(test)]
mod tests {
    use super::*;

    #[test]
    fn carets_stand_under_what_is_pointed_at() {
        assert_eq!(shown(b":0A", &(1..3)), [":0A", " ^^"]);
        assert_eq!(shown(b":0A", &(3..4)), [":0A", "   ^"]);
        assert_eq!(shown(b"", &(0..1)), ["", "^"]);
        assert_eq!(shown(b":0A", &(0..0)), [":0A", ""]);
    }

    #[test]
    fn other_characters_are_numbers() {
        let [characters, carets] = shown(b"\x00:\xFFA", &(2..3));
        assert_eq!(characters, "\\x00:\\xFFA");
        assert_eq!(carets, "     ^^^^");
    }

    #[test]
    fn a_long_line_is_cut() {
        let line: Vec<u8> = (0..521).map(|place| b'0' + (place % 10) as u8).collect();
        for place in 0..=line.len() {
            let [characters, carets] = shown(&line, &(place..place + 1));
            assert!((WINDOW..=WINDOW + 4).contains(&characters.len()));
            let column = carets.len() - 1;
            assert!(carets.ends_with('^') && column <= characters.len());
            match line.get(place) {
                Some(character) => assert_eq!(characters.as_bytes()[column], *character),
                None => assert_eq!(column, characters.len()),
            }
        }
    }
}
