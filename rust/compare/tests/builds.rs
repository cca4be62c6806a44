//! Images built by both sides. What is built has a good layout and holds the
//! bodies it was built from.

use compare::both::{find, layout, Both};
use compare::lists::lines;
use compare::run::run;
use compare::tally::Tally;
use compare::texts::room;

#[test]
fn builds() {
    let mut both = Both::default();
    let mut tally = Tally::new("builds");
    run("builds", |random| {
        let lines = lines(random);
        let size = room(lines.image_length(), random);
        let answer = both.build(&lines.kinds, &lines.lengths, &lines.bodies, size, random);
        tally.count(&answer);
        if let Ok(length) = answer {
            assert_eq!(length, lines.image_length());
            let image = &both.part()[..length];
            assert_eq!(layout(image), Ok(()));
            let mut bodies = &lines.bodies[..];
            for (kind, length) in lines.kinds.iter().zip(&lines.lengths) {
                let (body, rest) = bodies.split_at(*length);
                assert_eq!(find(image, *kind).map(|range| &image[range]), Some(body));
                bodies = rest;
            }
        }
    });
    tally.require(&[(0, 14_000), (17, 5_000), (18, 10_000), (19, 4_000)]);
}
