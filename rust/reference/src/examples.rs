//! The examples of document 01 that show through the public functions, and
//! those of the frequency. The rest stand beside what they are about.

use crate::counts::frequency;
use crate::*;

const SHOWN: &[u8] = b":0A0000005101C8000A0000000000D2\n:00000001FF\n";

fn refusal(number: u32, detail: u64) -> Refusal {
    Refusal { number, detail }
}

fn channel(sensor: u64, reference: u64) -> Channel {
    Channel {
        sensor: SensorCycles(sensor),
        reference: ReferenceCycles(reference),
    }
}

/// An identity, a pressure set of orders 3 3 and a temperature set of orders
/// 0 3, both with all coefficients 0.
struct Sample {
    identity: [u8; 24],
    pressure: [u8; 156],
    temperature: [u8; 60],
}

impl Sample {
    fn new() -> Self {
        let mut identity = [0; 24];
        identity[0] = 7;
        identity[4..8].copy_from_slice(&[0xD3, 0x07, 9, 8]);
        let mut pressure = [0; 156];
        pressure[..4].copy_from_slice(&[1, 1, 3, 3]);
        pressure[4] = 1;
        pressure[16] = 1;
        let mut temperature = [0; 60];
        temperature[..4].copy_from_slice(&[1, 1, 0, 3]);
        temperature[16] = 1;
        Self {
            identity,
            pressure,
            temperature,
        }
    }

    /// The image, with a trim too if there is one.
    fn image(&self, trim: &[u8], image: &mut [u8; 512]) -> usize {
        let mut bodies = [0; 256];
        let (before, after) = bodies.split_at_mut(240);
        before[..24].copy_from_slice(&self.identity);
        before[24..180].copy_from_slice(&self.pressure);
        before[180..].copy_from_slice(&self.temperature);
        after[..trim.len()].copy_from_slice(trim);
        let lines = if trim.is_empty() { 3 } else { 4 };
        build(
            &[1, 2, 3, 4][..lines],
            &[24, 156, 60, 16][..lines],
            &bodies[..240 + trim.len()],
            image,
        )
        .unwrap()
    }
}

#[test]
fn frequencies() {
    assert_eq!(frequency(channel(10_000, 2_000_000), 1), Ok(2_359_296_000));
    assert_eq!(
        frequency(channel(100_001, 33_554_432), 1),
        Ok(1_406_264_063)
    );
    assert_eq!(frequency(channel(1, 720), 1), Ok(655_360_000));
    assert_eq!(frequency(channel(1, 72), 1), Ok(6_553_600_000));
    assert_eq!(frequency(channel(1, 721), 1), Err(refusal(23, 1)));
    assert_eq!(frequency(channel(1, 71), 2), Err(refusal(23, 2)));
    assert_eq!(frequency(channel(1, 77), 1), Ok(6_128_041_558));
}

#[test]
fn two_bytes_written_and_judged() {
    let mut text = [9; 30];
    assert_eq!(write(&[0x51, 1], &mut text), Ok(28));
    assert_eq!(&text, b":020000005101AC\n:00000001FF\n\0\0");
    let mut image = [9; 4];
    assert_eq!(read(&text[..28], &mut image), Ok(2));
    assert_eq!(image, [0x51, 1, 0, 0]);
    assert_eq!(layout(&image[..2]), Err(refusal(6, 0)));
    assert_eq!(verdict(&image[..2], 1), Err(refusal(6, 0)));
}

#[test]
fn a_wrong_checksum() {
    let mut image = [9; 4];
    let text = b":020000005101AD\n:00000001FF\n";
    assert_eq!(read(text, &mut image), Err(refusal(2, 1)));
    assert_eq!(image, [0; 4]);
}

#[test]
fn the_end_alone_is_an_empty_image() {
    let mut image = [9; 4];
    assert_eq!(read(b":00000001FF\n", &mut image), Ok(0));
    assert_eq!(image, [0; 4]);
}

#[test]
fn the_shown_text() {
    let mut image = [9; 4_096];
    let length = read(SHOWN, &mut image).unwrap();
    for level in [1, 2] {
        assert_eq!(verdict(&image[..length], level), Err(refusal(10, 1)));
        assert_eq!(load(SHOWN, level, &mut image), Err(refusal(10, 1)));
        assert!(image.iter().all(|byte| *byte == 0));
        read(SHOWN, &mut image).unwrap();
    }
    let unknown = b":0A00000051017F000A00000000001B\n:00000001FF\n";
    let length = read(unknown, &mut image).unwrap();
    assert_eq!(verdict(&image[..length], 1), Err(refusal(9, 127)));
}

#[test]
fn leap_days() {
    let mut sample = Sample::new();
    let mut image = [0; 512];
    for (year, answer) in [(2004_u16, Ok(())), (2003, Err(refusal(11, 0)))] {
        sample.identity[4..6].copy_from_slice(&year.to_le_bytes());
        sample.identity[6..8].copy_from_slice(&[2, 29]);
        let length = sample.image(&[], &mut image);
        assert_eq!(verdict(&image[..length], 1), answer);
    }
}

#[test]
fn the_accepted_image() {
    let sample = Sample::new();
    let mut image = [0; 512];
    let length = sample.image(&[], &mut image);
    assert_eq!(verdict(&image[..length], 1), Ok(()));
    assert_eq!(verdict(&image[..length], 2), Ok(()));
    assert_eq!(find(&image[..length], 1), Some(26..50));
    assert_eq!(find(&image[..length], 4), None);
}

#[test]
fn a_trimmed_reading() {
    let mut sample = Sample::new();
    sample.pressure[28..36].copy_from_slice(&65_536_000_i64.to_le_bytes());
    let mut trim = [0; 16];
    trim[0] = 2;
    trim[4..8].copy_from_slice(&18_507_980_u32.to_le_bytes());
    let mut image = [0; 512];
    let length = sample.image(&trim, &mut image);
    let counts = Counts {
        pressure: channel(10_000, 2_000_000),
        temperature: channel(10_000, 2_000_000),
    };
    assert_eq!(
        reading(&image[..length], 2, counts),
        Ok(Reading {
            pressure: 4_518_550,
            temperature: 0,
            unit: 2,
            mark: 2,
        })
    );
    assert_eq!(reading(&image[..length], 1, counts), Err(refusal(9, 4)));
}
