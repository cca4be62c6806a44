//! The measured calls. Inputs pass through `opaque`, so that no call is worked out
//! beforehand; each answer is looked at, so that none is left out.

use crate::inputs::Inputs;
use crate::{ours, theirs};

/// Makes a call and gives a number made of its answer.
pub type Side = fn(&Inputs, &mut [u8]) -> u64;

pub struct Call {
    pub name: &'static str,
    pub title: &'static str,
    /// The bytes of the lent buffer; 0 for a call without one.
    pub output: usize,
    pub ours: Side,
    pub reference: Side,
}

/// A text loaded whole and by lines, both by the archive.
pub struct Loads {
    pub title: &'static str,
    pub whole: Side,
    pub by_lines: Side,
}

/// Bytes of the text of 4,096 bytes: 256 full records and the end.
const TEXT: usize = 256 * 44 + 12;
/// Bytes of the buffer that is lent for an image.
pub const IMAGE: usize = 4_096;

pub const CALLS: [Call; 12] = [
    Call {
        name: "read",
        title: "read a text of 4,096 bytes",
        output: IMAGE,
        ours: ours::read,
        reference: theirs::read,
    },
    Call {
        name: "write",
        title: "write a text of 4,096 bytes",
        output: TEXT,
        ours: ours::write,
        reference: theirs::write,
    },
    Call {
        name: "layout",
        title: "layout, 16 sections, 4,096 bytes",
        output: 0,
        ours: ours::layout,
        reference: theirs::layout,
    },
    Call {
        name: "verdict-typical",
        title: "verdict, orders 3 3 and 0 3",
        output: 0,
        ours: ours::verdict_typical,
        reference: theirs::verdict_typical,
    },
    Call {
        name: "verdict-large",
        title: "verdict, orders 4 4 twice, trim, note",
        output: 0,
        ours: ours::verdict_large,
        reference: theirs::verdict_large,
    },
    Call {
        name: "reading-typical",
        title: "reading, orders 3 3 and 0 3",
        output: 0,
        ours: ours::reading_typical,
        reference: theirs::reading_typical,
    },
    Call {
        name: "reading-large",
        title: "reading, orders 4 4 twice, trim, note",
        output: 0,
        ours: ours::reading_large,
        reference: theirs::reading_large,
    },
    Call {
        name: "build",
        title: "build, 16 sections, 4,096 bytes",
        output: IMAGE,
        ours: ours::build,
        reference: theirs::build,
    },
    Call {
        name: "load",
        title: "load a text of 4,096 bytes",
        output: IMAGE,
        ours: ours::load,
        reference: theirs::load,
    },
    Call {
        name: "load-lines",
        title: "load a text of 4,096 bytes by lines",
        output: IMAGE,
        ours: ours::load_lines,
        reference: theirs::load_lines,
    },
    Call {
        name: "load-typical",
        title: "load examples/typical.hex",
        output: IMAGE,
        ours: ours::load_typical,
        reference: theirs::load_typical,
    },
    Call {
        name: "load-typical-lines",
        title: "load examples/typical.hex by lines",
        output: IMAGE,
        ours: ours::load_typical_lines,
        reference: theirs::load_typical_lines,
    },
];

pub const LOADS: [Loads; 4] = [
    Loads {
        title: "4,096 bytes, 16 data bytes a record",
        whole: ours::load,
        by_lines: ours::load_lines,
    },
    Loads {
        title: "examples/typical.hex",
        whole: ours::load_typical,
        by_lines: ours::load_typical_lines,
    },
    Loads {
        title: "4,096 bytes, 32 data bytes a record",
        whole: ours::load_32,
        by_lines: ours::load_32_lines,
    },
    Loads {
        title: "4,096 bytes, 8 data bytes a record",
        whole: ours::load_8,
        by_lines: ours::load_8_lines,
    },
];
