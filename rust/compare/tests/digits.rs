//! A good text with any one digit changed to another value is refused.

use compare::both::Both;
use compare::records::{digit, records, text};
use compare::run::{cases, start};

/// Changes every digit of texts of images of these lengths to every value.
const LENGTHS: [usize; 12] = [0, 1, 2, 15, 16, 17, 31, 33, 48, 100, 256, 300];

#[test]
fn one_digit_changed() {
    let mut both = Both::default();
    let mut random = start("digits");
    let texts = LENGTHS.len() as u64 * cases() / 100_000;
    let mut tried = 0_u64;
    for length in LENGTHS.iter().take(texts.max(6) as usize) {
        let image = random.bytes(*length);
        let good = text(&records(&image, &mut random));
        assert_eq!(both.read(&good, 4_096, &mut random), Ok(*length));
        assert_eq!(&both.part()[..*length], image);
        let mut changed = good.clone();
        for at in 0..good.len() {
            if !good[at].is_ascii_hexdigit() {
                continue;
            }
            for value in 0..16 {
                let character = digit(value, random.chance(50));
                if character.eq_ignore_ascii_case(&good[at]) {
                    continue;
                }
                changed[at] = character;
                let answer = both.read(&changed, *length + 20, &mut random);
                assert!(answer.is_err(), "digit {} changed to {}", at, character);
                tried += 1;
            }
            changed[at] = good[at];
        }
    }
    println!("digits: {} changed texts refused", tried);
}
