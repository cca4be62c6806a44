//! The functions of libbjorkneve.a, as in the header: a length has 64 bits on
//! every machine.

use super::{
    BjorkneveAnswer, BjorkneveFilled, BjorkneveGauge, BjorknevePanel, BjorknevePlace,
    BjorkneveStatus, BjorkneveVerdict,
};
use crate::Counts;

#[allow(missing_docs)]
extern "C" {
    pub fn bjorkneve_read(
        text: *const u8,
        text_length: u64,
        image: *mut u8,
        image_length: u64,
    ) -> BjorkneveFilled;

    pub fn bjorkneve_write(
        image: *const u8,
        image_length: u64,
        text: *mut u8,
        text_length: u64,
    ) -> BjorkneveFilled;

    pub fn bjorkneve_load(
        text: *const u8,
        text_length: u64,
        level: u32,
        image: *mut u8,
        image_length: u64,
    ) -> BjorkneveFilled;

    pub fn bjorkneve_layout(image: *const u8, image_length: u64) -> BjorkneveVerdict;

    pub fn bjorkneve_verdict(image: *const u8, image_length: u64, level: u32) -> BjorkneveVerdict;

    pub fn bjorkneve_find(image: *const u8, image_length: u64, kind: u32) -> BjorknevePlace;

    pub fn bjorkneve_build(
        kinds: *const u32,
        kinds_length: u64,
        lengths: *const u64,
        lengths_length: u64,
        bodies: *const u8,
        bodies_length: u64,
        image: *mut u8,
        image_length: u64,
    ) -> BjorkneveFilled;

    pub fn bjorkneve_reading(
        image: *const u8,
        image_length: u64,
        level: u32,
        counts: Counts,
    ) -> BjorkneveAnswer;

    pub fn bjorkneve_panel_power_on(
        level: u32,
        image: *mut u8,
        image_length: u64,
        size: u64,
    ) -> BjorknevePanel;

    pub fn bjorkneve_panel_load(
        panel: BjorknevePanel,
        text: *const u8,
        text_length: u64,
        image: *mut u8,
        image_length: u64,
    ) -> BjorknevePanel;

    pub fn bjorkneve_panel_begin(
        panel: BjorknevePanel,
        image: *mut u8,
        image_length: u64,
    ) -> BjorknevePanel;

    pub fn bjorkneve_panel_line(
        panel: BjorknevePanel,
        line: *const u8,
        line_length: u64,
        image: *mut u8,
        image_length: u64,
    ) -> BjorknevePanel;

    pub fn bjorkneve_panel_end(
        panel: BjorknevePanel,
        image: *mut u8,
        image_length: u64,
    ) -> BjorknevePanel;

    pub fn bjorkneve_panel_status(panel: BjorknevePanel) -> BjorkneveStatus;

    pub fn bjorkneve_panel_reading(
        panel: BjorknevePanel,
        image: *const u8,
        image_length: u64,
        counts: Counts,
    ) -> BjorkneveAnswer;

    pub fn bjorkneve_panel_gauge(
        panel: BjorknevePanel,
        image: *const u8,
        image_length: u64,
    ) -> BjorkneveGauge;
}
