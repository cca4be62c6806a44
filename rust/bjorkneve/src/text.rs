use crate::{card, raw, Level, Refusal};

/// Bytes of the longest text that is written of an image.
///
/// ```
/// let image = [0; bjorkneve::LARGEST_IMAGE];
/// let mut buffer = [0; bjorkneve::LONGEST_WRITTEN_TEXT];
/// let text = bjorkneve::write(&image, &mut buffer)?;
/// assert_eq!(text.len(), bjorkneve::LONGEST_WRITTEN_TEXT);
/// # Ok::<(), bjorkneve::Refusal>(())
/// ```
pub const LONGEST_WRITTEN_TEXT: usize = card::LONGEST_WRITTEN_TEXT;

/// Bytes of the longest line of a text that can be good, with CR and LF: room
/// for a line on its way from a port to [`Loading::line`](crate::Loading::line).
///
/// ```
/// let digits = 2 * (1 + 2 + 1 + 255 + 1); // count, address, type, data, checksum
/// assert_eq!(bjorkneve::LONGEST_LINE, ":".len() + digits + "\r\n".len());
/// ```
pub const LONGEST_LINE: usize = card::LONGEST_LINE;

/// Bytes of the longest text that the show program takes. The library takes
/// longer ones too.
///
/// ```
/// let buffer = [0; bjorkneve::LONGEST_SHOWN_TEXT + 1];
/// assert_eq!(buffer.len(), 65_537); // one byte more, to see that a text is too long
/// ```
pub const LONGEST_SHOWN_TEXT: usize = card::LONGEST_SHOWN_TEXT;

/// Reads a HEX text into the lent buffer: the image, a part of the buffer, or
/// the first fault. What the image does not fill, and after a fault
/// everything, is zero.
///
/// ```
/// let mut buffer = [0; bjorkneve::LARGEST_IMAGE];
/// let image = bjorkneve::read(b":020000005101AC\n:00000001FF\n", &mut buffer)?;
/// assert_eq!(image, [0x51, 0x01]);
/// # Ok::<(), bjorkneve::Refusal>(())
/// ```
#[inline]
pub fn read<'a>(text: &[u8], buffer: &'a mut [u8]) -> Result<&'a [u8], Refusal> {
    raw::read(text, buffer).part(buffer)
}

/// Writes the image as a HEX text into the lent buffer: the text, a part of
/// the buffer, or a refusal. What the text does not fill, and after a refusal
/// everything, is zero.
///
/// ```
/// let mut buffer = [0; bjorkneve::LONGEST_WRITTEN_TEXT];
/// let text = bjorkneve::write(&[0x51, 0x01], &mut buffer)?;
/// assert_eq!(text, b":020000005101AC\n:00000001FF\n");
/// # Ok::<(), bjorkneve::Refusal>(())
/// ```
#[inline]
pub fn write<'a>(image: &[u8], buffer: &'a mut [u8]) -> Result<&'a [u8], Refusal> {
    raw::write(image, buffer).part(buffer)
}

/// Reads a HEX text into the lent buffer and judges the image at the level:
/// the accepted image, a part of the buffer, or a refusal and a buffer of
/// zeros.
///
/// ```
/// use bjorkneve::{refused, Level};
///
/// # let text = include_bytes!(concat!(env!("CARGO_MANIFEST_DIR"), "/../../examples/trimmed.hex"));
/// let mut buffer = [0; bjorkneve::LARGEST_IMAGE];
/// let image = bjorkneve::load(text, Level::Two, &mut buffer)?;
/// assert_eq!(bjorkneve::verdict(image, Level::Two), Ok(()));
///
/// // a level 1 panel doesn't know trims, and no image stays behind
/// let refusal = bjorkneve::load(text, Level::One, &mut buffer).unwrap_err();
/// assert_eq!((refusal.number, refusal.detail), (refused::UNKNOWN_KIND, 4));
/// assert_eq!(buffer, [0; bjorkneve::LARGEST_IMAGE]);
/// # Ok::<(), bjorkneve::Refusal>(())
/// ```
#[inline]
pub fn load<'a>(text: &[u8], level: Level, buffer: &'a mut [u8]) -> Result<&'a [u8], Refusal> {
    raw::load(text, level.into(), buffer).part(buffer)
}
