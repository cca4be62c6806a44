//! Images judged and searched by both sides.

use compare::both::{find, layout, verdict};
use compare::images::image;
use compare::lent::Placed;
use compare::run::run;
use compare::sections::lines;
use compare::tally::{required, Tally};
use compare::LEVELS;

#[test]
fn images() {
    let mut layouts = Tally::new("layouts");
    let mut verdicts = Tally::new("verdicts");
    let mut found = 0;
    let mut found_empty = 0;
    run("images", |random| {
        let placed = Placed::new(&image(random), random);
        let image = placed.part();
        layouts.count(&layout(image));
        for level in LEVELS {
            verdicts.count(&verdict(image, level));
        }
        let mut kinds = vec![0, 1, 2, 3, 4, 127, 128, 129, 255, 256, 257, u32::MAX];
        kinds.push(random.number() as u32);
        for line in 0..lines(image).min(17) {
            let kind = u32::from(image[2 + 8 * line]);
            kinds.extend_from_slice(&[kind, kind + 256]);
        }
        for kind in kinds {
            if let Some(range) = find(image, kind) {
                found += 1;
                found_empty += u64::from(range.is_empty());
            }
        }
    });
    println!("images: {} bodies found, {} empty", found, found_empty);
    assert!(found >= required(200_000) && found_empty >= required(2_000));
    layouts.require(&[(0, 20_000), (5, 2_000), (6, 1_000), (7, 6_000), (8, 1_500)]);
    layouts.require_each(7, &[0, 1, 2, 3, 4, 5, 6, 16], 20);
    layouts.require_each(8, &[0, 1, 2, 3, 4, 5], 20);
    verdicts.require(&[
        (0, 18_000),
        (5, 4_000),
        (6, 2_000),
        (7, 12_000),
        (8, 3_000),
        (9, 10_000),
        (10, 3_000),
        (11, 2_000),
        (12, 2_500),
        (13, 3_000),
        (15, 800),
        (16, 900),
        (20, 400_000),
    ]);
    verdicts.require_each(9, &[4, 5, 6, 40, 126, 127], 300);
    verdicts.require_each(10, &[1, 2, 3], 300);
}
