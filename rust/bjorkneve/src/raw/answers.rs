//! The structs the C functions give back, as in the header. Number 0 is
//! success.

use crate::{refused, Gauge, Mark, Reading, Refusal, Unit};
use core::ops::Range;

/// A judgement.
#[repr(C)]
#[derive(Debug, Clone, Copy, PartialEq, Eq)]
#[allow(missing_docs)]
pub struct BjorkneveVerdict {
    pub number: u32,
    pub detail: u64,
}

/// How much of a lent buffer was filled.
#[repr(C)]
#[derive(Debug, Clone, Copy, PartialEq, Eq)]
#[allow(missing_docs)]
pub struct BjorkneveFilled {
    pub number: u32,
    pub detail: u64,
    pub length: u64,
}

/// A reading.
#[repr(C)]
#[derive(Debug, Clone, Copy, PartialEq, Eq)]
#[allow(missing_docs)]
pub struct BjorkneveAnswer {
    pub number: u32,
    pub detail: u64,
    pub pressure: i64,
    pub temperature: i64,
    pub unit: u8,
    pub mark: u8,
}

/// Where a body stands.
#[repr(C)]
#[derive(Debug, Clone, Copy, PartialEq, Eq)]
#[allow(missing_docs)]
pub struct BjorknevePlace {
    pub there: bool,
    pub offset: u64,
    pub length: u64,
}

/// A panel, which its caller keeps from call to call. Any fields get an answer.
#[repr(C)]
#[derive(Debug, Clone, Copy, PartialEq, Eq)]
#[allow(missing_docs)]
pub struct BjorknevePanel {
    pub lines_or_detail: u64,
    pub size_or_number: u32,
    pub level: u8,
    pub stage: u8,
    pub first: u8,
}

/// How a panel's last load stands; all numbers are 0 while it is under way.
#[repr(C)]
#[derive(Debug, Clone, Copy, PartialEq, Eq)]
#[allow(missing_docs)]
pub struct BjorkneveStatus {
    pub number: u32,
    pub detail: u64,
    pub length: u64,
    pub lamp: bool,
    pub level: u8,
}

/// The gauge of a panel's image.
#[repr(C)]
#[derive(Debug, Clone, Copy, PartialEq, Eq)]
#[allow(missing_docs)]
pub struct BjorkneveGauge {
    pub number: u32,
    pub detail: u64,
    pub serial: u32,
    pub year: u16,
    pub month: u8,
    pub day: u8,
}

#[inline]
fn judged(number: u32, detail: u64) -> Result<(), Refusal> {
    match number {
        0 => Ok(()),
        _ => Err(Refusal { number, detail }),
    }
}

impl BjorkneveVerdict {
    /// As a result.
    #[inline]
    pub fn answer(self) -> Result<(), Refusal> {
        judged(self.number, self.detail)
    }
}

impl BjorkneveFilled {
    /// As a result: the part of the lent buffer that was filled. The length is
    /// never above the buffer's, so the cut changes nothing.
    #[inline]
    pub fn part(self, buffer: &[u8]) -> Result<&[u8], Refusal> {
        judged(self.number, self.detail)?;
        Ok(start(self.length, buffer))
    }
}

/// The buffer's first bytes, so many of them or all that there are.
#[inline]
fn start(length: u64, buffer: &[u8]) -> &[u8] {
    let length = usize::try_from(length).unwrap_or(buffer.len());
    &buffer[..length.min(buffer.len())]
}

impl BjorkneveAnswer {
    /// As a result. The library gives no other unit than the three; one that
    /// isn't among them would be a wrong trim's, so that it is refused as one.
    #[inline]
    pub fn answer(self) -> Result<Reading, Refusal> {
        judged(self.number, self.detail)?;
        let unit = Unit::of(self.unit).ok_or(Refusal {
            number: refused::TRIM,
            detail: 0,
        })?;
        Ok(Reading {
            pressure: self.pressure,
            temperature: self.temperature,
            unit,
            mark: Mark(self.mark),
        })
    }
}

impl BjorknevePlace {
    /// As a range; an end past the largest number is no place.
    #[inline]
    pub fn range(self) -> Option<Range<usize>> {
        if !self.there {
            return None;
        }
        let offset = usize::try_from(self.offset).ok()?;
        let length = usize::try_from(self.length).ok()?;
        Some(offset..offset.checked_add(length)?)
    }
}

impl BjorkneveStatus {
    /// What the load was refused by.
    #[inline]
    pub fn refusal(self) -> Option<Refusal> {
        judged(self.number, self.detail).err()
    }

    /// As a result: the part of the lent buffer that is the panel's image. A
    /// load under way has no answer yet, and is refused as no image is.
    #[inline]
    pub fn part(self, buffer: &[u8]) -> Result<&[u8], Refusal> {
        judged(self.number, self.detail)?;
        if !self.lamp {
            return Err(Refusal {
                number: refused::NOT_AN_IMAGE,
                detail: 0,
            });
        }
        Ok(start(self.length, buffer))
    }
}

impl BjorkneveGauge {
    /// As a result.
    #[inline]
    pub fn answer(self) -> Result<Gauge, Refusal> {
        judged(self.number, self.detail)?;
        Ok(Gauge {
            serial: self.serial,
            year: self.year,
            month: self.month,
            day: self.day,
        })
    }
}
