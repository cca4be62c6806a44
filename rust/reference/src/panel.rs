use crate::reader::{read_line, Said, FORM};
use crate::verdict::judge;
use crate::{load, reading, verdict, Counts, Gauge, Reading, Refusal};

/// A panel: its level and what its last load has come to. The buffer for the
/// image is lent to each call, always the same one.
#[derive(Debug, Clone, Copy, PartialEq, Eq)]
pub struct Panel {
    level: u8,
    load: Load,
}

#[derive(Debug, Clone, Copy, PartialEq, Eq)]
enum Load {
    UnderWay(UnderWay),
    /// The lamp is green, and the image has so many bytes.
    Accepted(usize),
    Refused(Refusal),
}

/// The lines so far were good. In the buffer 0 stands in place of the image's
/// first byte, so that nobody takes what is there for an image.
#[derive(Debug, Clone, Copy, PartialEq, Eq)]
struct UnderWay {
    lines: u64,
    size: usize,
    first: u8,
    /// The end record was among the lines.
    ended: bool,
}

impl UnderWay {
    /// The number of the next line; only a panel that was made up is at the
    /// largest number there is.
    fn next_line(&self) -> u64 {
        self.lines.wrapping_add(1)
    }
}

impl Panel {
    /// A panel at power-on. The first `kept` bytes of the buffer, or all where
    /// it has fewer, are judged; where they are no image for this level, the
    /// buffer is all zeros.
    pub fn power_on(level: u32, image: &mut [u8], kept: usize) -> Self {
        let kept = kept.min(image.len());
        image[kept..].fill(0);
        let mut panel = Self {
            // No level lies above 255, and 0 is none.
            level: u8::try_from(level).unwrap_or(0),
            load: Load::Accepted(kept),
        };
        panel.judge(kept, image);
        panel
    }

    /// A panel that its caller made up: the fields of the struct that crosses
    /// to C.
    pub fn made_up(
        lines_or_detail: u64,
        size_or_number: u32,
        level: u8,
        stage: u8,
        first: u8,
    ) -> Self {
        let size = size_or_number as usize;
        let load = match stage {
            1 | 2 => Load::UnderWay(UnderWay {
                lines: lines_or_detail,
                size,
                first,
                ended: stage == 2,
            }),
            3 => Load::Accepted(size),
            _ if size_or_number == 0 => Load::Refused(Refusal::plain(5)),
            _ => Load::Refused(Refusal::with(size_or_number, lines_or_detail)),
        };
        Self { level, load }
    }

    /// Loads a whole text.
    pub fn load(&mut self, text: &[u8], image: &mut [u8]) {
        self.load = match load(text, self.level.into(), image) {
            Ok(size) => Load::Accepted(size),
            Err(refusal) => Load::Refused(refusal),
        };
    }

    /// Begins a load by lines.
    pub fn begin(&mut self, image: &mut [u8]) {
        image.fill(0);
        self.load = Load::UnderWay(UnderWay {
            lines: 0,
            size: 0,
            first: 0,
            ended: false,
        });
    }

    /// Takes one line; nothing changes where no text is under way.
    pub fn line(&mut self, line: &[u8], image: &mut [u8]) {
        let text = match &mut self.load {
            Load::UnderWay(text) => text,
            _ => return,
        };
        let said = if text.ended {
            Err(FORM)
        } else {
            read_line(line, text.size, image)
        };
        match said {
            Ok(Said::Data { end }) => {
                if text.size == 0 {
                    text.first = core::mem::take(&mut image[0]);
                }
                text.size = end;
                text.lines = text.next_line();
            }
            Ok(Said::End) => {
                text.ended = true;
                text.lines = text.next_line();
            }
            Err(number) => {
                let refusal = Refusal::with(number, text.next_line());
                self.refuse(refusal, image);
            }
        }
    }

    /// Ends a load by lines; nothing changes where no text is under way.
    pub fn end(&mut self, image: &mut [u8]) {
        let text = match self.load {
            Load::UnderWay(text) => text,
            _ => return,
        };
        if !text.ended {
            return self.refuse(Refusal::with(FORM, text.next_line()), image);
        }
        if let Some(first) = image.first_mut() {
            *first = text.first;
        }
        self.judge(text.size, image);
    }

    /// The length of the image or what the last load was refused by; nothing
    /// while it is under way.
    pub fn answer(&self) -> Option<Result<usize, Refusal>> {
        match self.load {
            Load::UnderWay(_) => None,
            Load::Accepted(size) => Some(Ok(size)),
            Load::Refused(refusal) => Some(Err(refusal)),
        }
    }

    /// Whether the lamp is green.
    pub fn is_lit(&self) -> bool {
        matches!(self.load, Load::Accepted(_))
    }

    /// The level, 0 for one above 255.
    pub fn level(&self) -> u8 {
        self.level
    }

    /// A reading by the panel's image.
    pub fn reading(&self, image: &[u8], counts: Counts) -> Result<Reading, Refusal> {
        reading(self.image(image), self.level.into(), counts)
    }

    /// The gauge of the panel's image.
    pub fn gauge(&self, image: &[u8]) -> Result<Gauge, Refusal> {
        let accepted = judge(self.image(image), self.level.into())?;
        Ok(accepted.identity.gauge)
    }

    /// The image; nothing at all where the lamp isn't green.
    fn image<'a>(&self, image: &'a [u8]) -> &'a [u8] {
        match self.load {
            Load::Accepted(size) => &image[..size.min(image.len())],
            _ => &[],
        }
    }

    /// Accepts or refuses the first bytes of the buffer.
    fn judge(&mut self, size: usize, image: &mut [u8]) {
        let size = size.min(image.len());
        match verdict(&image[..size], self.level.into()) {
            Ok(()) => self.load = Load::Accepted(size),
            Err(refusal) => self.refuse(refusal, image),
        }
    }

    fn refuse(&mut self, refusal: Refusal, image: &mut [u8]) {
        image.fill(0);
        self.load = Load::Refused(refusal);
    }
}

#[cfg(test)]
mod tests {
    use super::*;

    const DATA: &[u8] = b":0A0000005101C8000A0000000000D2\n";
    const END: &[u8] = b":00000001FF\n";

    #[test]
    fn the_first_byte_is_withheld() {
        let mut image = [9; 12];
        let mut panel = Panel::power_on(1, &mut image, 0);
        assert_eq!(
            (panel.answer(), image),
            (Some(Err(Refusal::plain(5))), [0; 12])
        );
        panel.begin(&mut image);
        panel.line(DATA, &mut image);
        assert_eq!((panel.answer(), image[0], image[2]), (None, 0, 0xC8));
        panel.line(END, &mut image);
        assert_eq!((panel.answer(), image[0], image[2]), (None, 0, 0xC8));
        panel.end(&mut image);
        let refused = Some(Err(Refusal::with(10, 1)));
        assert_eq!((panel.answer(), image), (refused, [0; 12]));
    }

    #[test]
    fn a_fault_stands() {
        let mut image = [9; 12];
        for (lines, fault) in [
            (&[DATA, DATA][..], Refusal::with(3, 2)),
            (&[DATA, b"", END], Refusal::with(FORM, 2)),
            (&[DATA, END, END], Refusal::with(FORM, 3)),
            (&[b":00000001FF\n:00000001FF\n"], Refusal::with(FORM, 1)),
            (&[b":00000001FF"], Refusal::with(FORM, 1)),
            (&[DATA], Refusal::with(FORM, 2)),
            (&[], Refusal::with(FORM, 1)),
        ] {
            let mut panel = Panel::power_on(2, &mut image, 0);
            panel.begin(&mut image);
            lines.iter().for_each(|line| panel.line(line, &mut image));
            panel.end(&mut image);
            panel.line(END, &mut image);
            panel.end(&mut image);
            assert_eq!((panel.answer(), image), (Some(Err(fault)), [0; 12]));
        }
    }
}
