//! Output buffers that are dirty before a call and guarded around it, and
//! inputs at any address.

use crate::random::Random;

const GUARD: usize = 64;
const GUARD_BYTE: u8 = 0xA5;

/// A buffer used again for each case.
#[derive(Default)]
pub struct Lent {
    bytes: Vec<u8>,
    start: usize,
    size: usize,
}

impl Lent {
    /// A part of this size, full of dirt, with a guard on either side. It
    /// starts at an address the dirt decides.
    pub fn lend(&mut self, size: usize, dirt: u8) -> &mut [u8] {
        self.start = GUARD + usize::from(dirt % 16);
        self.size = size;
        let end = self.start + size;
        if self.bytes.len() < end + GUARD {
            self.bytes.resize(end + GUARD, 0);
        }
        self.bytes[..self.start].fill(GUARD_BYTE);
        self.bytes[self.start..end].fill(dirt);
        self.bytes[end..end + GUARD].fill(GUARD_BYTE);
        &mut self.bytes[self.start..end]
    }

    /// The part last lent.
    pub fn part(&self) -> &[u8] {
        &self.bytes[self.start..self.start + self.size]
    }

    /// The part last lent, as it was left.
    pub fn again(&mut self) -> &mut [u8] {
        &mut self.bytes[self.start..self.start + self.size]
    }

    /// Checks the guards, and that the part is zero past `length`.
    pub fn check(&self, length: usize) {
        self.check_guards();
        assert!(length <= self.size, "more was filled than was lent");
        let clean = self.part()[length..].iter().all(|byte| *byte == 0);
        assert!(clean, "the rest of the lent part isn't zero");
    }

    /// Checks that nothing beside the part was changed.
    pub fn check_guards(&self) {
        let before = &self.bytes[..self.start];
        let after = &self.bytes[self.start + self.size..][..GUARD];
        let untouched = before.iter().chain(after).all(|byte| *byte == GUARD_BYTE);
        assert!(untouched, "a byte beside the lent part was changed");
    }
}

/// An input that starts at any address and goes on into other bytes.
pub struct Placed {
    bytes: Vec<u8>,
    start: usize,
    end: usize,
}

impl Placed {
    pub fn new(input: &[u8], random: &mut Random) -> Self {
        let start = random.below(16);
        let mut bytes = random.bytes(start);
        bytes.extend_from_slice(input);
        bytes.extend_from_slice(&random.number().to_le_bytes());
        Self {
            bytes,
            start,
            end: start + input.len(),
        }
    }

    pub fn part(&self) -> &[u8] {
        &self.bytes[self.start..self.end]
    }
}
