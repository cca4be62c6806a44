//! The C functions on slices. Borrowing is what makes each call safe: a slice
//! is readable for its whole length, a lent one is writable and apart from the
//! others, and the functions keep no pointer.

use super::declarations as c;
use super::{
    BjorkneveAnswer, BjorkneveFilled, BjorkneveGauge, BjorknevePanel, BjorknevePlace,
    BjorkneveStatus, BjorkneveVerdict,
};
use crate::Counts;

/// `bjorkneve_read`.
#[inline]
pub fn read(text: &[u8], image: &mut [u8]) -> BjorkneveFilled {
    // SAFETY: both pointers are good for the lengths beside them, the lent
    // image overlaps nothing, and neither is kept.
    unsafe {
        c::bjorkneve_read(
            text.as_ptr(),
            text.len() as u64,
            image.as_mut_ptr(),
            image.len() as u64,
        )
    }
}

/// `bjorkneve_write`.
#[inline]
pub fn write(image: &[u8], text: &mut [u8]) -> BjorkneveFilled {
    // SAFETY: both pointers are good for the lengths beside them, the lent
    // text overlaps nothing, and neither is kept.
    unsafe {
        c::bjorkneve_write(
            image.as_ptr(),
            image.len() as u64,
            text.as_mut_ptr(),
            text.len() as u64,
        )
    }
}

/// `bjorkneve_load`.
#[inline]
pub fn load(text: &[u8], level: u32, image: &mut [u8]) -> BjorkneveFilled {
    // SAFETY: both pointers are good for the lengths beside them, the lent
    // image overlaps nothing, and neither is kept.
    unsafe {
        c::bjorkneve_load(
            text.as_ptr(),
            text.len() as u64,
            level,
            image.as_mut_ptr(),
            image.len() as u64,
        )
    }
}

/// `bjorkneve_layout`.
#[inline]
pub fn layout(image: &[u8]) -> BjorkneveVerdict {
    // SAFETY: the pointer is good for reading the length beside it.
    unsafe { c::bjorkneve_layout(image.as_ptr(), image.len() as u64) }
}

/// `bjorkneve_verdict`.
#[inline]
pub fn verdict(image: &[u8], level: u32) -> BjorkneveVerdict {
    // SAFETY: the pointer is good for reading the length beside it.
    unsafe { c::bjorkneve_verdict(image.as_ptr(), image.len() as u64, level) }
}

/// `bjorkneve_find`.
#[inline]
pub fn find(image: &[u8], kind: u32) -> BjorknevePlace {
    // SAFETY: the pointer is good for reading the length beside it.
    unsafe { c::bjorkneve_find(image.as_ptr(), image.len() as u64, kind) }
}

/// `bjorkneve_build`.
#[inline]
pub fn build(kinds: &[u32], lengths: &[u64], bodies: &[u8], image: &mut [u8]) -> BjorkneveFilled {
    // SAFETY: each pointer is aligned and good for the number of elements
    // beside it, the lent image overlaps nothing, and none is kept.
    unsafe {
        c::bjorkneve_build(
            kinds.as_ptr(),
            kinds.len() as u64,
            lengths.as_ptr(),
            lengths.len() as u64,
            bodies.as_ptr(),
            bodies.len() as u64,
            image.as_mut_ptr(),
            image.len() as u64,
        )
    }
}

/// `bjorkneve_reading`.
#[inline]
pub fn reading(image: &[u8], level: u32, counts: Counts) -> BjorkneveAnswer {
    // SAFETY: the pointer is good for reading the length beside it.
    unsafe { c::bjorkneve_reading(image.as_ptr(), image.len() as u64, level, counts) }
}

/// `bjorkneve_panel_power_on`.
#[inline]
pub fn panel_power_on(level: u32, image: &mut [u8], size: u64) -> BjorknevePanel {
    // SAFETY: the pointer is good for writing the length beside it, and isn't
    // kept; a size of any value gets an answer.
    unsafe { c::bjorkneve_panel_power_on(level, image.as_mut_ptr(), image.len() as u64, size) }
}

/// `bjorkneve_panel_load`.
#[inline]
pub fn panel_load(panel: BjorknevePanel, text: &[u8], image: &mut [u8]) -> BjorknevePanel {
    // SAFETY: both pointers are good for the lengths beside them, the lent
    // image overlaps nothing, and neither is kept; any panel gets an answer.
    unsafe {
        c::bjorkneve_panel_load(
            panel,
            text.as_ptr(),
            text.len() as u64,
            image.as_mut_ptr(),
            image.len() as u64,
        )
    }
}

/// `bjorkneve_panel_begin`.
#[inline]
pub fn panel_begin(panel: BjorknevePanel, image: &mut [u8]) -> BjorknevePanel {
    // SAFETY: the pointer is good for writing the length beside it, and isn't
    // kept; any panel gets an answer.
    unsafe { c::bjorkneve_panel_begin(panel, image.as_mut_ptr(), image.len() as u64) }
}

/// `bjorkneve_panel_line`.
#[inline]
pub fn panel_line(panel: BjorknevePanel, line: &[u8], image: &mut [u8]) -> BjorknevePanel {
    // SAFETY: both pointers are good for the lengths beside them, the lent
    // image overlaps nothing, and neither is kept; any panel gets an answer.
    unsafe {
        c::bjorkneve_panel_line(
            panel,
            line.as_ptr(),
            line.len() as u64,
            image.as_mut_ptr(),
            image.len() as u64,
        )
    }
}

/// `bjorkneve_panel_end`.
#[inline]
pub fn panel_end(panel: BjorknevePanel, image: &mut [u8]) -> BjorknevePanel {
    // SAFETY: the pointer is good for writing the length beside it, and isn't
    // kept; any panel gets an answer.
    unsafe { c::bjorkneve_panel_end(panel, image.as_mut_ptr(), image.len() as u64) }
}

/// `bjorkneve_panel_status`.
#[inline]
pub fn panel_status(panel: BjorknevePanel) -> BjorkneveStatus {
    // SAFETY: no pointer is given, and any panel gets an answer.
    unsafe { c::bjorkneve_panel_status(panel) }
}

/// `bjorkneve_panel_reading`.
#[inline]
pub fn panel_reading(panel: BjorknevePanel, image: &[u8], counts: Counts) -> BjorkneveAnswer {
    // SAFETY: the pointer is good for reading the length beside it; any panel
    // gets an answer.
    unsafe { c::bjorkneve_panel_reading(panel, image.as_ptr(), image.len() as u64, counts) }
}

/// `bjorkneve_panel_gauge`.
#[inline]
pub fn panel_gauge(panel: BjorknevePanel, image: &[u8]) -> BjorkneveGauge {
    // SAFETY: the pointer is good for reading the length beside it; any panel
    // gets an answer.
    unsafe { c::bjorkneve_panel_gauge(panel, image.as_ptr(), image.len() as u64) }
}
