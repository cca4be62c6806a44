//! Each date about the years that a panel takes, judged by both sides.

use compare::bodies::{identity, limits};
use compare::both::verdict;
use compare::run::start;
use compare::sections::Sections;
use compare::sets::Set;

/// 1 January 1980 to 31 December 2099: 120 years of 365 days, 30 of them leap.
const REAL_DATES: u64 = 120 * 365 + 30;

#[test]
fn every_date() {
    let mut random = start("dates");
    let set = Set::new(0, 0).body();
    let identity = identity(limits(&mut random), &mut random);
    let mut sections = Sections(vec![(1, identity), (2, set.clone()), (3, set)]);
    let mut accepted = 0;
    let mut refused = 0;
    for year in 1979..=2100_u16 {
        for month in (0..=13).chain([255]) {
            for day in (0..=32).chain([255]) {
                let [low, high] = year.to_le_bytes();
                sections.0[0].1[4..8].copy_from_slice(&[low, high, month, day]);
                match verdict(&sections.image(), 1) {
                    Ok(()) => accepted += 1,
                    Err(refusal) => {
                        assert_eq!(refusal, (11, 0), "{year}-{month}-{day}");
                        refused += 1;
                    }
                }
            }
        }
    }
    println!("dates: {accepted} accepted, {refused} refused");
    assert_eq!(accepted, REAL_DATES);
}
