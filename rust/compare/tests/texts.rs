//! Texts read by both sides.

use compare::both::Both;
use compare::lent::Placed;
use compare::run::run;
use compare::tally::{required, Tally};
use compare::texts::{any_text, room};

#[test]
fn texts() {
    let mut both = Both::default();
    let mut tally = Tally::new("texts");
    run("texts", |random| {
        let text = any_text(random);
        let size = room(text.image_length, random);
        let bytes = Placed::new(&text.bytes, random);
        tally.count(&both.read(bytes.part(), size, random));
    });
    tally.require(&[(0, 8_000), (1, 8_000), (2, 1_500), (3, 5_000), (4, 5_000)]);
    for number in 1..=4 {
        // In the first line, in a later one, and where a byte has run over.
        for (first, last, least) in [(1, 1, 300), (2, 255, 300), (256, 5_000, 15)] {
            let seen = tally.between(number, first..=last);
            println!(
                "texts: number {} in lines {} to {} seen {} times",
                number, first, last, seen
            );
            assert!(seen >= required(least));
        }
    }
}
