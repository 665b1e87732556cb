//! The numbers that a job ends in.

use std::fmt;

/// What a job ends in. A number that the fitter does not give (8, and those above 9) has no name.
#[derive(Clone, Copy, Debug, PartialEq, Eq, Hash, PartialOrd, Ord)]
#[repr(u8)]
pub enum Status {
    /// 0: every equation holds within the tolerance.
    Fitted = 0,
    /// 1: the text has over 16,384 bytes.
    TextTooLong = 1,
    /// 2: the text is not of the form of a job.
    NotAJob = 2,
    /// 3: over 40 points, 40 lines, 40 equations or 20 measures.
    TooMany = 3,
    /// 4: a coordinate or a value is not finite or above 1,000,000 in magnitude, or the size not from 1/1024 to 1,000,000.
    NumberOutOfBounds = 4,
    /// 5: a point or a line that the job does not have.
    Missing = 5,
    /// 6: the equations have over 64 rows.
    TooManyRows = 6,
    /// 7: the equations of some group cannot all hold, or the fit did not get there.
    NotConverged = 7,
    /// 9: a work area of fewer than 6,400 numbers.
    TooShort = 9,
}

impl Status {
    /// Every status, rising.
    pub const ALL: [Self; 9] = [
        Self::Fitted,
        Self::TextTooLong,
        Self::NotAJob,
        Self::TooMany,
        Self::NumberOutOfBounds,
        Self::Missing,
        Self::TooManyRows,
        Self::NotConverged,
        Self::TooShort,
    ];

    /// Its number.
    pub fn number(self) -> u8 {
        self as u8
    }

    /// The status with this number.
    pub fn from_number(number: u8) -> Option<Self> {
        Self::ALL.into_iter().find(|s| s.number() == number)
    }
}

impl fmt::Display for Status {
    fn fmt(&self, f: &mut fmt::Formatter<'_>) -> fmt::Result {
        f.write_str(match self {
            Self::Fitted => "fitted",
            Self::TextTooLong => "the text has over 16,384 bytes",
            Self::NotAJob => "the text is not of the form of a job",
            Self::TooMany => "over 40 points, 40 lines, 40 equations or 20 measures",
            Self::NumberOutOfBounds => "a number is not finite or out of its bounds",
            Self::Missing => "a point or a line that the job does not have",
            Self::TooManyRows => "the equations have over 64 rows",
            Self::NotConverged => "the equations of a group do not all hold",
            Self::TooShort => "a work area of fewer than 6,400 numbers",
        })
    }
}
