use crate::{card, refused, Refusal};

/// What a panel knows.
///
/// ```
/// use bjorkneve::{refused, Level};
///
/// assert_eq!(Level::try_from(2), Ok(Level::Two));
/// assert_eq!(u32::from(Level::Two), 2);
/// assert_eq!(Level::try_from(257).map_err(|refusal| refusal.number), Err(refused::NO_SUCH_LEVEL));
/// ```
#[repr(u32)]
#[derive(Debug, Clone, Copy, PartialEq, Eq)]
pub enum Level {
    /// Identity, pressure set and temperature set.
    One = card::LEVEL_1,
    /// Trim and note too.
    Two = card::LEVEL_2,
}

impl From<Level> for u32 {
    #[inline]
    fn from(level: Level) -> Self {
        level as Self
    }
}

impl TryFrom<u32> for Level {
    type Error = Refusal;

    #[inline]
    fn try_from(number: u32) -> Result<Self, Refusal> {
        match number {
            card::LEVEL_1 => Ok(Level::One),
            card::LEVEL_2 => Ok(Level::Two),
            _ => Err(Refusal {
                number: refused::NO_SUCH_LEVEL,
                detail: 0,
            }),
        }
    }
}
