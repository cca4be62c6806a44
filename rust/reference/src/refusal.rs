/// What a panel shows in place of a result.
#[derive(Debug, Clone, Copy, PartialEq, Eq)]
pub struct Refusal {
    /// The number of the table in document 01.
    pub number: u32,
    /// The line, kind, channel or set the number speaks of, or 0.
    pub detail: u64,
}

impl Refusal {
    /// A refusal whose number says everything.
    pub(crate) const fn plain(number: u32) -> Self {
        Self { number, detail: 0 }
    }

    pub(crate) const fn with(number: u32, detail: u64) -> Self {
        Self { number, detail }
    }
}
