//! What the program says of itself. The front prints the same pages, before
//! anything is built.

pub const PROGRAM: &str = include_str!("help/program.txt");
pub const WORDS: &str = include_str!("help/words.txt");
pub const READING: &str = include_str!("help/reading.txt");
pub const CARD: &str = include_str!("help/card.txt");
