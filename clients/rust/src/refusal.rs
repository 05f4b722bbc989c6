//! Why a job, a system or a call is turned down.

use std::fmt;

/// A refusal. Its discriminant is the number that programs print.
#[derive(Clone, Copy, Debug, PartialEq, Eq)]
pub enum Refusal {
    SizeOutOfRange = 1,
    PlaceOutOfRange = 2,
    EndOutOfRange = 3,
    EndsOutOfOrder = 4,
    ComponentOutOfRange = 5,
    PivotContainsZero = 6,
    OutsideSpan = 7,
    JobEndsEarly = 9,
    MarkNotAllowed = 10,
    PlaceNotRising = 11,
    EntryIsZero = 12,
    BytesAfterEnd = 13,
    BufferTooShort = 14,
    Settled = 23,
    Full = 24,
}

impl Refusal {
    pub fn number(self) -> u32 {
        self as u32
    }
}

impl fmt::Display for Refusal {
    fn fmt(&self, f: &mut fmt::Formatter<'_>) -> fmt::Result {
        write!(f, "refused {}", self.number())
    }
}

impl std::error::Error for Refusal {}
