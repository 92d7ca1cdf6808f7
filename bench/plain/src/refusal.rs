//! Why a call is refused: its number, and what it carries.

use crate::run::Failure;
use std::fmt;

#[derive(Clone, Copy, Debug, PartialEq, Eq)]
pub enum Refusal {
    /// No line goes on so.
    Syntax(usize),
    /// Digits beyond their limit.
    Digits(usize),
    AxisTwice(usize),
    TooLong,
    Byte(usize),
    TooManyLines,
    UnmatchedEnd,
    LabelUsed,
    TooManyBlocks,
    NoParameter,
    BadRange,
    Open,
    FewStates,
    Uncertified(Failure),
    NoCertificate,
    OutsideRange(usize),
    NoRun,
    TooManySteps,
    BadValue,
    InputTooLong,
    BadTravel,
    BadGap,
}

impl Refusal {
    pub fn number(self) -> u32 {
        match self {
            Refusal::TooLong => 11,
            Refusal::Byte(_) => 12,
            Refusal::Syntax(_) => 13,
            Refusal::Digits(_) => 14,
            Refusal::AxisTwice(_) => 15,
            Refusal::TooManyLines => 21,
            Refusal::UnmatchedEnd => 22,
            Refusal::LabelUsed => 23,
            Refusal::TooManyBlocks => 24,
            Refusal::NoParameter => 26,
            Refusal::BadRange => 27,
            Refusal::Open => 31,
            Refusal::FewStates => 32,
            Refusal::Uncertified(_) => 33,
            Refusal::NoCertificate => 41,
            Refusal::OutsideRange(_) => 42,
            Refusal::NoRun => 43,
            Refusal::TooManySteps => 44,
            Refusal::BadValue => 45,
            Refusal::InputTooLong => 46,
            Refusal::BadTravel => 51,
            Refusal::BadGap => 52,
        }
    }

    pub fn place(self) -> Option<usize> {
        match self {
            Refusal::TooLong => Some(crate::reader::MAX_BYTES),
            Refusal::Byte(n) | Refusal::Syntax(n) | Refusal::Digits(n) | Refusal::AxisTwice(n) => Some(n),
            _ => None,
        }
    }
}

impl fmt::Display for Refusal {
    fn fmt(&self, f: &mut fmt::Formatter<'_>) -> fmt::Result {
        write!(f, "refused {}", self.number())?;
        match (*self, self.place()) {
            (Refusal::Uncertified(failure), _) => write!(f, " {failure}"),
            (Refusal::OutsideRange(parameter), _) => write!(f, " {parameter}"),
            (_, Some(place)) => write!(f, " {place}"),
            _ => Ok(()),
        }
    }
}
