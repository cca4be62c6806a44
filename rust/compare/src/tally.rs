//! How often each number and detail was seen.

use crate::run::cases;
use std::collections::BTreeMap;
use std::ops::RangeInclusive;

/// What both sides answered, a refusal as its number and detail.
pub type Answer<T> = Result<T, (u32, u64)>;

pub struct Tally {
    test: &'static str,
    seen: BTreeMap<(u32, u64), u64>,
}

impl Tally {
    pub fn new(test: &'static str) -> Self {
        Self {
            test,
            seen: BTreeMap::new(),
        }
    }

    /// Counts an answer; number 0 stands for a success.
    pub fn count<T>(&mut self, answer: &Answer<T>) {
        let refusal = match answer {
            Ok(_) => (0, 0),
            Err(refusal) => *refusal,
        };
        *self.seen.entry(refusal).or_insert(0) += 1;
    }

    /// Prints all counts. Requires each stated number as often as stated, and
    /// no other number at all.
    pub fn require(&self, stated: &[(u32, u64)]) {
        for (number, least) in stated {
            let seen = self.between(*number, 0..=u64::MAX);
            println!("{}: number {} seen {} times", self.test, number, seen);
            let least = required(*least);
            assert!(seen >= least, "number {} seen under {}", number, least);
        }
        for (number, detail) in self.seen.keys() {
            let given = stated.iter().any(|(stated, _)| stated == number);
            assert!(given, "number {} (detail {}) here", number, detail);
        }
    }

    /// Requires each of these details of a number as often as stated.
    pub fn require_each(&self, number: u32, details: &[u64], least: u64) {
        for detail in details {
            let seen = self.between(number, *detail..=*detail);
            let least = required(least);
            println!(
                "{}: number {} detail {} seen {} times",
                self.test, number, detail, seen
            );
            assert!(seen >= least, "detail {} seen under {}", detail, least);
        }
    }

    /// How often the number was seen with a detail in the range.
    pub fn between(&self, number: u32, details: RangeInclusive<u64>) -> u64 {
        let (first, last) = details.into_inner();
        let range = (number, first)..=(number, last);
        self.seen.range(range).map(|(_, seen)| seen).sum()
    }
}

/// What a run must reach of a number stated for 100,000 cases. A shorter run
/// has wider swings, so it must reach half its share.
pub fn required(stated: u64) -> u64 {
    if cases() >= 100_000 {
        stated
    } else {
        stated * cases() / 200_000
    }
}
