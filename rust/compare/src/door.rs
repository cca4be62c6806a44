//! The safe door's panel taken through a history that the archive's has been
//! through. While a load is under way its type lets nothing be asked, and it
//! has no line or end without a begin.

use crate::both::{as_reference, our_counts, ours_refusal};
use crate::history::{Event, History};
use crate::lent::Lent;
use crate::panels::{our_gauge, put, Told};
use bjorkneve::{Level, Loading, Panel};
use std::iter::{Peekable, Zip};
use std::slice::Iter;

type Events<'a> = Peekable<Zip<Iter<'a, Event>, Iter<'a, Told>>>;

/// Checks each answer beside what was told, and at each loss of power the
/// buffer beside what was left.
pub fn check(history: &History, told: &[Told], left: &[Vec<u8>], lent: &mut Lent, dirt: u8) {
    lent.lend(history.size, dirt);
    let mut events = history.events.iter().zip(told).peekable();
    for left in left {
        if let Some((Event::PowerOn { level, bytes, kept }, told)) = events.next() {
            put(bytes, lent.again());
            match Level::try_from(*level) {
                Ok(level) => {
                    let mut panel = Panel::power_on(level, lent.again(), *kept);
                    same(&panel, told);
                    while powered(&mut events) {
                        step(&mut panel, &mut events);
                    }
                }
                // the door has no such panel
                Err(_) => {
                    while powered(&mut events) {
                        events.next();
                    }
                    lent.again().copy_from_slice(left);
                }
            }
        }
        lent.check_guards();
        assert!(lent.part() == &left[..], "content of the door's buffer");
    }
    assert!(events.next().is_none());
}

fn powered(events: &mut Events<'_>) -> bool {
    !matches!(events.peek(), None | Some((Event::PowerOn { .. }, _)))
}

/// Takes the panel through the next event, or through a load by lines.
fn step(panel: &mut Panel<'_>, events: &mut Events<'_>) {
    if let Some((event, told)) = events.next() {
        match event {
            Event::Load(text) => {
                let answer = panel.load(text).map(<[u8]>::len).map_err(ours_refusal);
                assert_eq!(Some(answer), told.load);
            }
            Event::Begin => {
                let told = by_lines(panel.begin(), told, events);
                return same(panel, told);
            }
            Event::Reading(counts) => {
                let reading = panel.reading(our_counts(*counts));
                let reading = reading.map(as_reference).map_err(ours_refusal);
                assert_eq!(Some(reading), told.reading);
            }
            Event::Line(_) | Event::End | Event::PowerOn { .. } => {}
        }
        same(panel, told);
    }
}

/// Takes lines up to the end or to what begins anew; what was told last.
fn by_lines<'a>(
    mut loading: Loading<'_, '_>,
    begun: &'a Told,
    events: &mut Events<'a>,
) -> &'a Told {
    let mut last = begun;
    loop {
        let refusal = loading.refusal().map(|refusal| Err(ours_refusal(refusal)));
        assert_eq!(refusal, last.load);
        match events.peek() {
            Some((Event::Line(line), _)) => loading.line(line),
            Some((Event::Reading(_), _)) => {}
            Some((Event::End, told)) => {
                let answer = loading.end().map(<[u8]>::len).map_err(ours_refusal);
                assert_eq!(Some(answer), told.load);
                let told = *told;
                events.next();
                return told;
            }
            _ => return last,
        }
        if let Some((_, told)) = events.next() {
            last = told;
        }
    }
}

fn same(panel: &Panel<'_>, told: &Told) {
    assert_eq!(panel.is_lit(), told.lit);
    assert_eq!(u32::from(panel.level()), u32::from(told.level));
    let image = panel.image().map(<[u8]>::len).map_err(ours_refusal);
    assert_eq!(image, told.load.unwrap_or(Err((5, 0))));
    let gauge = panel.gauge().map(our_gauge).map_err(ours_refusal);
    assert_eq!(gauge, told.gauge);
}
