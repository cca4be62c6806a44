const SPAN_LIMIT: u32 = 1 << 31;
const ZERO_LIMIT: u64 = 1 << 40;

/// An accepted trim: the unit shown, and the line from psi to it.
pub(crate) struct Trim {
    pub(crate) unit: u8,
    span: u32,
    zero: i64,
}

impl Trim {
    pub(crate) fn parse(body: &[u8]) -> Option<Self> {
        let body: &[u8; 16] = body.try_into().ok()?;
        let trim = Self {
            unit: body[0],
            span: u32::from_le_bytes([body[4], body[5], body[6], body[7]]),
            zero: i64::from_le_bytes([
                body[8], body[9], body[10], body[11], body[12], body[13], body[14], body[15],
            ]),
        };
        let good = (1..=3).contains(&trim.unit)
            && body[1..4] == [0; 3]
            && (1..=SPAN_LIMIT).contains(&trim.span)
            && trim.zero.unsigned_abs() <= ZERO_LIMIT;
        if good {
            Some(trim)
        } else {
            None
        }
    }

    /// The product stays within 2^62: span and pressure are within 2^31.
    pub(crate) fn apply(&self, pressure: i64) -> i64 {
        self.zero + ((i64::from(self.span) * pressure + (1 << 27)) >> 28)
    }
}
