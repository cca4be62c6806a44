//! Running a test's cases from a seed.

use crate::random::Random;
use std::cell::Cell;
use std::env;
use std::panic;
use std::sync::Once;

const SEED: u64 = 20_030_908;
const CASES: u64 = 100_000;

thread_local! {
    /// The case this thread is at.
    static CURRENT: Cell<Option<u64>> = const { Cell::new(None) };
}

/// The cases a test was asked to run.
pub fn cases() -> u64 {
    number("BJORKNEVE_CASES").unwrap_or(CASES)
}

/// Prints the seed and gives a generator to a test without numbered cases.
pub fn start(test: &str) -> Random {
    println!("{}: seed {}", test, seed());
    Random::new(seed())
}

/// Runs a test's cases, each with a generator of its own. A case that panics
/// is named.
pub fn run(test: &str, mut case: impl FnMut(&mut Random)) {
    name_failing_case();
    let seed = seed();
    println!("{}: seed {}, {} cases", test, seed, cases());
    for number in 0..cases() {
        CURRENT.with(|current| current.set(Some(number)));
        case(&mut Random::new(mix(seed, number)));
    }
    CURRENT.with(|current| current.set(None));
}

fn seed() -> u64 {
    number("BJORKNEVE_SEED").unwrap_or(SEED)
}

fn mix(seed: u64, number: u64) -> u64 {
    Random::new(seed).number() ^ Random::new(number.rotate_left(32)).number()
}

fn number(variable: &str) -> Option<u64> {
    let text = env::var(variable).ok()?;
    match text.parse() {
        Ok(number) => Some(number),
        Err(_) => panic!("{} must be a whole number, not {:?}", variable, text),
    }
}

/// By a hook and not on unwinding, since an archive may bring a runtime that
/// aborts.
fn name_failing_case() {
    static ONCE: Once = Once::new();
    ONCE.call_once(|| {
        let usual = panic::take_hook();
        panic::set_hook(Box::new(move |what| {
            if let Some(number) = CURRENT.with(Cell::get) {
                eprintln!("case {} failed", number);
            }
            usual(what);
        }));
    });
}
