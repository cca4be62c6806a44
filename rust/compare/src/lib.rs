//! Inputs for the comparison of `bjorkneve` with `reference`, and the checks
//! of a compared call. The makers follow document 01 on their own and call
//! neither of the two.
//!
//! `BJORKNEVE_SEED` and `BJORKNEVE_CASES` change the seed and the number of
//! cases of every test.

pub mod aim;
pub mod bodies;
pub mod both;
pub mod counts;
pub mod damage;
pub mod door;
pub mod exact;
pub mod expected;
pub mod fields;
pub mod history;
pub mod images;
pub mod lent;
pub mod lists;
pub mod panels;
pub mod pieces;
pub mod random;
pub mod readings;
pub mod records;
pub mod run;
pub mod sections;
pub mod sets;
pub mod tally;
pub mod texts;

/// The most bytes an image may have.
pub const IMAGE_LIMIT: usize = 4_096;

/// The two levels there are, and some there are not; 257 is 1 in its low byte.
pub const LEVELS: [u32; 6] = [0, 1, 2, 3, 257, u32::MAX];
