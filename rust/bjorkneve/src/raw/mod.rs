//! The C functions as they are, and their answers before they are made into
//! results. For the crate and its tests; no promise of staying.

mod answers;
mod calls;
mod declarations;

pub use answers::{
    BjorkneveAnswer, BjorkneveFilled, BjorkneveGauge, BjorknevePanel, BjorknevePlace,
    BjorkneveStatus, BjorkneveVerdict,
};
pub use calls::{build, find, layout, load, read, reading, verdict, write};
pub use calls::{
    panel_begin, panel_end, panel_gauge, panel_line, panel_load, panel_power_on, panel_reading,
    panel_status,
};
pub use declarations::*;
