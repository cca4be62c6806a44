//! What a panel must show, told by its history alone: the lamp is green exactly
//! while the last load that began has ended accepted, what is shown is by that
//! load's image, and lines come to what the whole text does.

use crate::both::{reading, Both};
use crate::history::Event;
use crate::panels::{put, Told};
use crate::pieces::are_lines;
use crate::random::Random;
use crate::tally::Answer;
use reference::Gauge;

pub struct Expected {
    level: u32,
    /// The image of the last load, while the lamp is green.
    image: Option<Vec<u8>>,
    /// The lines since a begin without an end.
    lines: Option<Vec<Vec<u8>>>,
    /// The buffer after the last event.
    left: Vec<u8>,
    whole: Both,
    pub seen: Seen,
}

/// How often something was seen that should be.
#[derive(Default)]
pub struct Seen {
    /// Loads that ended, of the lines of a text and of what are none.
    pub by_lines: u64,
    pub of_no_lines: u64,
    /// Readings asked for while a load was under way.
    pub asked_under_way: u64,
    /// Loads after which a green lamp was out.
    pub went_out: u64,
    /// Loads after which another gauge was shown.
    pub another_gauge: u64,
}

impl Expected {
    /// Of a panel that was never powered on, with a buffer of this size.
    pub fn new(size: usize) -> Self {
        Self {
            level: 0,
            image: None,
            lines: None,
            left: vec![0; size],
            whole: Both::default(),
            seen: Seen::default(),
        }
    }

    /// Looks at what is told after an event; the answer of a load that ends.
    pub fn check(
        &mut self,
        event: &Event,
        told: &Told,
        buffer: &[u8],
        random: &mut Random,
    ) -> Option<Answer<usize>> {
        let before = self.image.as_deref().map(gauge);
        let answer = self.after(event, told, buffer, random);
        assert_eq!(told.lit, self.image.is_some(), "the lamp");
        match &self.image {
            Some(image) => {
                assert_eq!(told.gauge, Ok(gauge(image)));
                assert_eq!(told.load, Some(Ok(image.len())));
                assert!(buffer.starts_with(image), "another image");
            }
            None => assert!(matches!(told.gauge, Err((5 | 20, 0)))),
        }
        if self.lines.is_some() {
            assert!(matches!(buffer.first(), None | Some(0)), "an image's start");
        }
        match (before, told.gauge) {
            (Some(_), Err(_)) => self.seen.went_out += 1,
            (Some(before), Ok(now)) => self.seen.another_gauge += u64::from(before != now),
            (None, _) => {}
        }
        self.left.copy_from_slice(buffer);
        answer
    }

    fn after(
        &mut self,
        event: &Event,
        told: &Told,
        buffer: &[u8],
        random: &mut Random,
    ) -> Option<Answer<usize>> {
        match event {
            Event::PowerOn { level, bytes, kept } => {
                put(bytes, &mut self.left);
                let kept = &self.left[..self.left.len().min(*kept)];
                self.level = *level;
                self.lines = None;
                self.image = match reference::verdict(kept, *level) {
                    Ok(()) => Some(kept.to_vec()),
                    Err(_) => None,
                };
            }
            Event::Load(text) => {
                self.lines = None;
                return Some(self.loaded(text, told, buffer, random));
            }
            Event::Begin => {
                self.lines = Some(Vec::new());
                self.image = None;
            }
            Event::Line(line) => {
                if let Some(lines) = &mut self.lines {
                    lines.push(line.clone());
                }
            }
            Event::End => {
                let lines = self.lines.take()?;
                if are_lines(&lines) {
                    self.seen.by_lines += 1;
                    return Some(self.loaded(&lines.concat(), told, buffer, random));
                }
                self.seen.of_no_lines += 1;
                assert!(matches!(told.load, Some(Err((1..=4, _)))), "no fault");
                assert!(buffer.iter().all(|byte| *byte == 0));
                return told.load;
            }
            Event::Reading(counts) => {
                self.seen.asked_under_way += u64::from(self.lines.is_some());
                let image = self.image.as_deref().unwrap_or(&[]);
                assert_eq!(told.reading, Some(reading(image, self.level, *counts)));
            }
        }
        None
    }

    /// A load that ended answers what both answer of its whole text, and
    /// leaves the same buffer.
    fn loaded(
        &mut self,
        text: &[u8],
        told: &Told,
        buffer: &[u8],
        random: &mut Random,
    ) -> Answer<usize> {
        let answer = self.whole.load(text, self.level, buffer.len(), random);
        assert_eq!(told.load, Some(answer), "the whole text's answer");
        assert!(buffer == self.whole.part(), "the whole text's buffer");
        self.image = answer.ok().map(|length| buffer[..length].to_vec());
        answer
    }
}

/// Serial number and date, where the identity has them.
fn gauge(image: &[u8]) -> Gauge {
    let identity = reference::find(image, 1).expect("an accepted image has an identity");
    let body = &image[identity];
    Gauge {
        serial: u32::from_le_bytes([body[0], body[1], body[2], body[3]]),
        year: u16::from_le_bytes([body[4], body[5]]),
        month: body[6],
        day: body[7],
    }
}
