//! The rules of document 01 as a firmware engineer would write them by hand,
//! and a panel over them that loads whole texts or lines: no allocation, no `unsafe`, early returns, one pass where the order of the
//! checks allows it. Nothing here is proved; it is a second opinion on the
//! proved build and a yardstick for its speed.

#![no_std]
#![forbid(unsafe_code)]
#![warn(missing_docs)]

mod builder;
mod counts;
mod identity;
mod layout;
mod note;
mod panel;
mod reader;
mod reading;
mod refusal;
mod set;
mod trim;
mod verdict;
mod writer;

#[cfg(test)]
mod examples;

pub use builder::build;
pub use counts::{Channel, Counts, ReferenceCycles, SensorCycles};
pub use identity::Gauge;
pub use layout::{find, layout};
pub use panel::Panel;
pub use reader::{load, read};
pub use reading::{reading, Reading};
pub use refusal::Refusal;
pub use verdict::verdict;
pub use writer::write;

/// The most bytes an image may have.
const IMAGE_LIMIT: usize = 4_096;
/// Byte 0 of every image.
const IMAGE_SIGN: u8 = 0x51;
/// The most contents lines an image may have.
const LINE_LIMIT: usize = 16;
/// Bytes before the first contents line.
const HEAD_BYTES: usize = 2;
/// Bytes of a contents line.
const LINE_BYTES: usize = 8;
