use crate::card;
use core::fmt;

/// The numbers of refusals by name, with the fault card's words in short.
///
/// ```
/// use bjorkneve::{layout, refused};
///
/// let refusal = layout(b"no image").unwrap_err();
/// assert_eq!(refusal.number, refused::NOT_AN_IMAGE);
/// ```
pub mod refused {
    #[doc(inline)]
    pub use crate::card::refused::*;
}

/// What a panel shows in place of a result. It is displayed with the fault
/// card's words.
///
/// ```
/// let refusal = bjorkneve::Refusal { number: 6, detail: 0 };
/// let said = "refused 6 0: The number of contents lines is 0 or above 16, or they don't fit in the image.";
/// assert_eq!(refusal.to_string(), said);
/// ```
#[derive(Debug, Clone, Copy, PartialEq, Eq)]
pub struct Refusal {
    /// The number on the fault card, one of [`refused`].
    pub number: u32,
    /// The line, kind, channel or set the number speaks of, or 0.
    pub detail: u64,
}

impl Refusal {
    /// The fault card's words for the number; nothing for a number that the
    /// card doesn't have, which no call gives.
    ///
    /// ```
    /// let refusal = bjorkneve::Refusal { number: 22, detail: 1 };
    /// assert_eq!(refusal.what_happened(), Some("The number of reference cycles is 0."));
    /// ```
    #[must_use]
    pub fn what_happened(&self) -> Option<&'static str> {
        card::what_happened(self.number)
    }

    /// What the detail means; nothing where the card has a 0 for it.
    ///
    /// ```
    /// let refusal = bjorkneve::Refusal { number: 22, detail: 1 };
    /// assert_eq!(refusal.detail_means(), Some("pressure channel"));
    /// let refusal = bjorkneve::Refusal { number: 8, detail: 1 };
    /// assert_eq!(refusal.detail_means(), Some("the contents line, from 0"));
    /// ```
    #[must_use]
    pub fn detail_means(&self) -> Option<&'static str> {
        card::detail(self.number)?.means(self.detail)
    }

    /// What the fault card says to do.
    ///
    /// ```
    /// let refusal = bjorkneve::Refusal { number: 22, detail: 1 };
    /// let advice = "Check the panel: it doesn't count the reference clock.";
    /// assert_eq!(refusal.what_to_do(), Some(advice));
    /// ```
    #[must_use]
    pub fn what_to_do(&self) -> Option<&'static str> {
        card::what_to_do(self.number)
    }
}

impl fmt::Display for Refusal {
    fn fmt(&self, f: &mut fmt::Formatter<'_>) -> fmt::Result {
        write!(f, "refused {} {}", self.number, self.detail)?;
        match self.what_happened() {
            Some(words) => write!(f, ": {}", words),
            None => Ok(()),
        }
    }
}

#[cfg(core_error)]
impl core::error::Error for Refusal {}

#[cfg(all(test, core_error))]
mod tests {
    extern crate std;
    use super::Refusal;
    use std::boxed::Box;
    use std::error::Error;
    use std::string::ToString;

    #[test]
    fn is_an_error() {
        let refusal = Refusal {
            number: 22,
            detail: 1,
        };
        let error: Box<dyn Error> = refusal.into();
        let said = error.to_string();
        assert_eq!(said, "refused 22 1: The number of reference cycles is 0.");
    }
}
