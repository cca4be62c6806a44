use crate::{card, raw, Level, Refusal};
use core::ops::Range;

/// Bytes of the largest image.
///
/// ```
/// let buffer = [0; bjorkneve::LARGEST_IMAGE];
/// assert_eq!(buffer.len(), 4_096);
/// ```
pub const LARGEST_IMAGE: usize = card::LARGEST_IMAGE;

/// Judges the contents and the body sums (numbers 5 to 8).
///
/// ```
/// use bjorkneve::{build, layout};
///
/// let mut buffer = [0; bjorkneve::LARGEST_IMAGE];
/// let image = build(&[200, 201], &[2, 3], b"abcde", &mut buffer)?;
/// assert_eq!(layout(image), Ok(()));
/// # Ok::<(), bjorkneve::Refusal>(())
/// ```
#[inline]
pub fn layout(image: &[u8]) -> Result<(), Refusal> {
    raw::layout(image).answer()
}

/// Judges the image at the level (numbers 5 to 13, 15, 16).
///
/// ```
/// use bjorkneve::{build, refused, verdict, Level};
///
/// let mut buffer = [0; bjorkneve::LARGEST_IMAGE];
/// let image = build(&[200, 201], &[2, 3], b"abcde", &mut buffer)?;
/// let refusal = verdict(image, Level::Two).unwrap_err();
/// assert_eq!((refusal.number, refusal.detail), (refused::MISSING_KIND, 1));
/// # Ok::<(), bjorkneve::Refusal>(())
/// ```
#[inline]
pub fn verdict(image: &[u8], level: Level) -> Result<(), Refusal> {
    raw::verdict(image, level.into()).answer()
}

/// Where the body of the kind stands; nothing for an ill-laid image or an
/// absent kind.
///
/// ```
/// use bjorkneve::{build, place};
///
/// let mut buffer = [0; bjorkneve::LARGEST_IMAGE];
/// let image = build(&[200, 201], &[2, 3], b"abcde", &mut buffer)?;
/// assert_eq!(place(image, 201), Some(20..23));
/// assert_eq!(place(image, 202), None);
/// # Ok::<(), bjorkneve::Refusal>(())
/// ```
#[inline]
#[must_use]
pub fn place(image: &[u8], kind: u32) -> Option<Range<usize>> {
    raw::find(image, kind).range()
}

/// The body of the kind itself, as a part of the image.
///
/// ```
/// use bjorkneve::{build, find};
///
/// let mut buffer = [0; bjorkneve::LARGEST_IMAGE];
/// let image = build(&[200, 201], &[2, 3], b"abcde", &mut buffer)?;
/// assert_eq!(find(image, 201), Some(&b"cde"[..]));
/// # Ok::<(), bjorkneve::Refusal>(())
/// ```
#[inline]
#[must_use]
pub fn find(image: &[u8], kind: u32) -> Option<&[u8]> {
    image.get(place(image, kind)?)
}

/// Builds the image whose line `i` has `kinds[i]` and `lengths[i]`, from the
/// joined bodies, in the lent buffer: the image, a part of the buffer, or a
/// refusal. What the image does not fill, and after a refusal everything, is
/// zero.
///
/// ```
/// use bjorkneve::{build, refused};
///
/// let mut buffer = [0; bjorkneve::LARGEST_IMAGE];
/// let image = build(&[200, 201], &[2, 3], b"abcde", &mut buffer)?;
/// assert_eq!(image.len(), 2 + 2 * 8 + 5);
///
/// let refusal = build(&[201, 200], &[2, 3], b"abcde", &mut buffer).unwrap_err();
/// assert_eq!(refusal.number, refused::BUILDER_LINES);
/// # Ok::<(), bjorkneve::Refusal>(())
/// ```
#[inline]
pub fn build<'a>(
    kinds: &[u32],
    lengths: &[usize],
    bodies: &[u8],
    buffer: &'a mut [u8],
) -> Result<&'a [u8], Refusal> {
    // More than 16 lines are refused, whichever they are, so 17 stand for all.
    let mut wide = [0; 17];
    for (wide, length) in wide.iter_mut().zip(lengths) {
        *wide = *length as u64;
    }
    let kinds = &kinds[..kinds.len().min(wide.len())];
    let wide = &wide[..lengths.len().min(wide.len())];
    raw::build(kinds, wide, bodies, buffer).part(buffer)
}
