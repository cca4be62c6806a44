//! A safe door to the C archive libbjorkneve.a: calibration texts, images and
//! readings by the rules of docs/FORMAT.md. Every function answers for every
//! input; none panics or allocates.
//!
//! ```
//! use bjorkneve::{Channel, Counts, Level, ReferenceCycles, SensorCycles, Unit};
//!
//! # let text = include_bytes!(concat!(env!("CARGO_MANIFEST_DIR"), "/../../examples/typical.hex"));
//! let mut buffer = [0; bjorkneve::LARGEST_IMAGE];
//! let image = bjorkneve::load(text, Level::Two, &mut buffer)?;
//! let counts = Counts {
//!     pressure: Channel {
//!         sensor: SensorCycles(10_000),
//!         reference: ReferenceCycles(2_847_876),
//!     },
//!     temperature: Channel {
//!         sensor: SensorCycles(10_000),
//!         reference: ReferenceCycles(1_352_875),
//!     },
//! };
//! let reading = bjorkneve::reading(image, Level::Two, counts)?;
//! assert_eq!((reading.pressure >> 16, reading.unit), (2_989, Unit::Psi));
//! # Ok::<(), bjorkneve::Refusal>(())
//! ```

#![no_std]
#![warn(missing_docs)]

/// The fault card, docs/NUMBERS.md, for programs that print it.
///
/// ```
/// use bjorkneve::fault_card;
///
/// let rows = || fault_card::TABLES.iter().flat_map(|table| table.rows);
/// assert_eq!(rows().map(|row| row.number).max(), Some(26));
/// assert!(rows().all(|row| row.number != 14));
/// ```
pub mod fault_card;
#[doc(hidden)]
pub mod raw;

mod card;
mod counts;
mod gauge;
mod image;
mod level;
mod loading;
mod panel;
mod reading;
mod refusal;
mod text;

pub use counts::{Channel, Counts, ReferenceCycles, SensorCycles};
pub use gauge::Gauge;
pub use image::{build, find, layout, place, verdict, LARGEST_IMAGE};
pub use level::Level;
pub use loading::Loading;
pub use panel::Panel;
pub use reading::{reading, Mark, Reading, Unit};
pub use refusal::{refused, Refusal};
pub use text::{load, read, write, LONGEST_LINE, LONGEST_SHOWN_TEXT, LONGEST_WRITTEN_TEXT};
