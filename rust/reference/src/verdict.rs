use crate::identity::Identity;
use crate::layout::{layout, sections};
use crate::note::good_note;
use crate::set::Set;
use crate::trim::Trim;
use crate::Refusal;

/// What an accepted image holds for a reading.
pub(crate) struct Accepted<'a> {
    pub(crate) identity: Identity,
    pub(crate) pressure: Set<'a>,
    pub(crate) temperature: Set<'a>,
    pub(crate) trim: Option<Trim>,
}

/// Judges the image at the level (numbers 20, then 5 to 13, 15, 16).
pub fn verdict(image: &[u8], level: u32) -> Result<(), Refusal> {
    judge(image, level).map(|_| ())
}

#[inline]
pub(crate) fn judge(image: &[u8], level: u32) -> Result<Accepted<'_>, Refusal> {
    if level != 1 && level != 2 {
        return Err(Refusal::plain(20));
    }
    layout(image)?;

    let mut needed = [None; 3];
    let mut trim = None;
    let mut note = None;
    for (kind, body) in sections(image) {
        match kind {
            1..=3 => needed[usize::from(kind) - 1] = Some(body),
            4 if level == 2 => trim = Some(body),
            129 if level == 2 => note = Some(body),
            128.. => {}
            // Kinds rise, so the first unknown one is the lowest.
            _ => return Err(Refusal::with(9, u64::from(kind))),
        }
    }
    let [identity, pressure, temperature] = needed;
    let identity = identity.ok_or(Refusal::with(10, 1))?;
    let pressure = pressure.ok_or(Refusal::with(10, 2))?;
    let temperature = temperature.ok_or(Refusal::with(10, 3))?;

    let identity = Identity::parse(identity).ok_or(Refusal::plain(11))?;
    let pressure = Set::parse(pressure).ok_or(Refusal::plain(12))?;
    let temperature = Set::parse(temperature).ok_or(Refusal::plain(13))?;
    let trim = match trim {
        Some(body) => Some(Trim::parse(body).ok_or(Refusal::plain(15))?),
        None => None,
    };
    if !note.map_or(true, good_note) {
        return Err(Refusal::plain(16));
    }
    Ok(Accepted {
        identity,
        pressure,
        temperature,
        trim,
    })
}
