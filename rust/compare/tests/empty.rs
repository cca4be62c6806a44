//! Empty slices wherever one can be given, also at the end of another slice,
//! and empty parts of C callers that pass no address.

use bjorkneve::{raw, Channel, Counts, ReferenceCycles, SensorCycles};
use compare::both::{find, layout, verdict, Both};
use compare::run::start;
use std::ptr::{null, null_mut};

const END: &[u8] = b":00000001FF\n";

#[test]
fn empty_slices() {
    let mut both = Both::default();
    let mut random = start("empty");
    let owned: Box<[u8]> = Vec::new().into();
    let bytes = [0x51_u8, 1, 2];
    for empty in [
        &[][..],
        &bytes[3..],
        &bytes[..0],
        &owned,
        Default::default(),
    ] {
        for size in [0, 1, 12, 4_096] {
            assert_eq!(both.read(empty, size, &mut random), Err((1, 1)));
            assert_eq!(both.load(empty, 1, size, &mut random), Err((1, 1)));
            let written = if size < 12 { Err((17, 0)) } else { Ok(12) };
            assert_eq!(both.write(empty, size, &mut random), written);
            let unlisted = both.build(&[], &[], empty, size, &mut random);
            assert_eq!(unlisted, Err((18, 0)));
            let one_empty = both.build(&[255], &[0], empty, size, &mut random);
            assert_eq!(one_empty, if size < 10 { Err((17, 0)) } else { Ok(10) });
        }
        assert_eq!(layout(empty), Err((5, 0)));
        assert_eq!(verdict(empty, 0), Err((20, 0)));
        assert_eq!(verdict(empty, 2), Err((5, 0)));
        assert_eq!(find(empty, 1), None);
    }
    assert_eq!(both.read(END, 0, &mut random), Ok(0));
    assert_eq!(both.load(END, 1, 0, &mut random), Err((5, 0)));
}

#[test]
fn no_address() {
    let mut end = END.to_vec();
    let length = end.len() as u64;
    // SAFETY: every length is 0, so nothing is read or written through the
    // null pointers; the one text has its own length beside it.
    unsafe {
        let read = raw::bjorkneve_read(null(), 0, null_mut(), 0);
        assert_eq!((read.number, read.detail, read.length), (1, 1, 0));
        let read = raw::bjorkneve_read(end.as_ptr(), length, null_mut(), 0);
        assert_eq!((read.number, read.detail, read.length), (0, 0, 0));
        let load = raw::bjorkneve_load(null(), 0, 1, null_mut(), 0);
        assert_eq!((load.number, load.detail, load.length), (1, 1, 0));
        let write = raw::bjorkneve_write(null(), 0, null_mut(), 0);
        assert_eq!((write.number, write.detail, write.length), (17, 0, 0));
        let write = raw::bjorkneve_write(null(), 0, end.as_mut_ptr(), length);
        assert_eq!((write.number, write.detail, write.length), (0, 0, 12));
        let layout = raw::bjorkneve_layout(null(), 0);
        assert_eq!((layout.number, layout.detail), (5, 0));
        let verdict = raw::bjorkneve_verdict(null(), 0, 1);
        assert_eq!((verdict.number, verdict.detail), (5, 0));
        let place = raw::bjorkneve_find(null(), 0, 1);
        assert_eq!((place.there, place.offset, place.length), (false, 0, 0));
        let build = raw::bjorkneve_build(null(), 0, null(), 0, null(), 0, null_mut(), 0);
        assert_eq!((build.number, build.detail, build.length), (18, 0, 0));
        let channel = Channel {
            sensor: SensorCycles(1),
            reference: ReferenceCycles(720),
        };
        let counts = Counts {
            pressure: channel,
            temperature: channel,
        };
        let reading = raw::bjorkneve_reading(null(), 0, 1, counts);
        assert_eq!((reading.number, reading.detail), (5, 0));

        let refused = |panel| {
            let status = raw::bjorkneve_panel_status(panel);
            assert!(!status.lamp);
            (status.number, status.detail)
        };
        let panel = raw::bjorkneve_panel_power_on(1, null_mut(), 0, u64::MAX);
        assert_eq!(refused(panel), (5, 0));
        let loaded = raw::bjorkneve_panel_load(panel, null(), 0, null_mut(), 0);
        assert_eq!(refused(loaded), (1, 1));
        let begun = raw::bjorkneve_panel_begin(panel, null_mut(), 0);
        assert_eq!(refused(begun), (0, 0));
        let stopped = raw::bjorkneve_panel_line(begun, null(), 0, null_mut(), 0);
        assert_eq!(refused(stopped), (1, 1));
        let whole = raw::bjorkneve_panel_line(begun, end.as_ptr(), length, null_mut(), 0);
        assert_eq!(refused(whole), (0, 0));
        let ended = raw::bjorkneve_panel_end(whole, null_mut(), 0);
        assert_eq!(refused(ended), (5, 0));
        for panel in [panel, loaded, begun, stopped, whole, ended] {
            let reading = raw::bjorkneve_panel_reading(panel, null(), 0, counts);
            assert_eq!((reading.number, reading.detail), (5, 0));
            let gauge = raw::bjorkneve_panel_gauge(panel, null(), 0);
            assert_eq!((gauge.number, gauge.detail), (5, 0));
        }
    }
    assert_eq!(end, END);
}
