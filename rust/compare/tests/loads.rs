//! Texts loaded at a level by both sides.

use compare::both::Both;
use compare::images::image;
use compare::run::run;
use compare::tally::Tally;
use compare::texts::{any_text, room, text_of};
use compare::LEVELS;

#[test]
fn loads() {
    let mut both = Both::default();
    let mut tally = Tally::new("loads");
    run("loads", |random| {
        let text = if random.chance(10) {
            any_text(random)
        } else {
            text_of(&image(random), 15, random)
        };
        let size = room(text.image_length, random);
        let level = match random.below(10) {
            0 => random.pick(&LEVELS),
            1..=3 => 1,
            _ => 2,
        };
        tally.count(&both.load(&text.bytes, level, size, random));
    });
    tally.require(&[
        (0, 5_000),
        (1, 3_500),
        (2, 400),
        (3, 1_500),
        (4, 7_000),
        (5, 1_500),
        (6, 600),
        (7, 3_000),
        (8, 800),
        (9, 2_000),
        (10, 1_000),
        (11, 500),
        (12, 700),
        (13, 1_000),
        (15, 250),
        (16, 300),
        (20, 1_200),
    ]);
}
