//! Images written by both sides. What is written reads back the same.

use compare::both::Both;
use compare::lent::Placed;
use compare::random::Random;
use compare::run::run;
use compare::tally::Tally;

fn image_length(random: &mut Random) -> usize {
    match random.below(20) {
        0..=10 => random.below(70),
        11..=14 => (16 * random.below(20) + random.below(3)).saturating_sub(1),
        15..=17 => random.below(600),
        18 => random.between(4_078, 4_098) as usize,
        _ => random.between(4_090, 4_300) as usize,
    }
}

fn text_length(image_length: usize) -> usize {
    let last = match image_length % 16 {
        0 => 0,
        rest => 12 + 2 * rest,
    };
    image_length / 16 * 44 + last + 12
}

fn room(length: usize, random: &mut Random) -> usize {
    match random.below(12) {
        0 => random.pick(&[0, 1, 11, 12, 13]),
        1 => length - 1,
        2..=4 => length,
        5 => length + 1,
        6 => random.below(length),
        7 => random.pick(&[4_095, 4_096, 4_097, 4_098]),
        8 => random.pick(&[11_275, 11_276, 11_277]),
        _ => length + random.below(100),
    }
}

#[test]
fn writes() {
    let mut both = Both::default();
    let mut back = Both::default();
    let mut tally = Tally::new("writes");
    run("writes", |random| {
        let length = image_length(random);
        let placed = Placed::new(&random.bytes(length), random);
        let image = placed.part();
        let needed = text_length(length);
        let size = room(needed, random);
        let answer = both.write(image, size, random);
        tally.count(&answer);
        if let Ok(written) = answer {
            assert_eq!(written, needed);
            let text = &both.part()[..written];
            assert_eq!(back.read(text, length, random), Ok(length));
            assert!(back.part() == image, "another image was read back");
        }
    });
    tally.require(&[(0, 20_000), (4, 1_500), (17, 8_000)]);
}
