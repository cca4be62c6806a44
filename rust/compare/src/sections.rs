//! An image as its sections, and the repair of its sums.

/// Kinds and bodies in the order of the contents.
#[derive(Clone, Default)]
pub struct Sections(pub Vec<(u8, Vec<u8>)>);

impl Sections {
    /// The image, with right offsets, lengths and sums whatever the kinds.
    pub fn image(&self) -> Vec<u8> {
        let mut image = vec![0x51, self.0.len() as u8];
        let mut offset = 2 + 8 * self.0.len();
        for (kind, body) in &self.0 {
            image.extend_from_slice(&[*kind, 0]);
            image.extend_from_slice(&(offset as u16).to_le_bytes());
            image.extend_from_slice(&(body.len() as u16).to_le_bytes());
            image.extend_from_slice(&sum(body).to_le_bytes());
            offset += body.len();
        }
        for (_, body) in &self.0 {
            image.extend_from_slice(body);
        }
        image
    }

    /// The length the image will have.
    pub fn length(&self) -> usize {
        2 + self.0.iter().map(|(_, body)| 8 + body.len()).sum::<usize>()
    }
}

/// Rights the sum of every line whose body lies in the image.
pub fn mend_sums(image: &mut [u8]) {
    for line in 0..lines(image) {
        let at = 2 + 8 * line;
        let start = number(image, at + 2);
        let end = start + number(image, at + 4);
        if let Some(body) = image.get(start..end) {
            let sum = sum(body);
            image[at + 6..at + 8].copy_from_slice(&sum.to_le_bytes());
        }
    }
}

/// How many whole contents lines the image has room for and claims.
pub fn lines(image: &[u8]) -> usize {
    match image {
        [_, count, rest @ ..] => usize::from(*count).min(rest.len() / 8),
        _ => 0,
    }
}

/// The two-byte number at a place.
pub fn number(image: &[u8], at: usize) -> usize {
    usize::from(u16::from_le_bytes([image[at], image[at + 1]]))
}

fn sum(body: &[u8]) -> u16 {
    (body.iter().map(|byte| u32::from(*byte)).sum::<u32>() % 65_536) as u16
}
