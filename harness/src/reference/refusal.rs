//! Refusals: a number, and the place it names if it names one.

use std::fmt;

/// The sixteen refusal numbers.
pub mod number {
    /// Under four bytes, or not `cgx`.
    pub const NOT_CGX: u8 = 1;
    /// The level byte is not 0.
    pub const LEVEL: u8 = 2;
    /// No bytes left before ENDLIB.
    pub const NO_ENDLIB: u8 = 3;
    /// One to three bytes left, or the size runs past the end.
    pub const CUT_SHORT: u8 = 4;
    /// The size is odd or below 4.
    pub const SIZE: u8 = 5;
    /// The record is not allowed here.
    pub const SEQUENCE: u8 = 6;
    /// The flags are not allowed.
    pub const FLAGS: u8 = 7;
    /// The body length does not suit the kind.
    pub const BODY: u8 = 8;
    /// A date out of range.
    pub const DATE: u8 = 9;
    /// Scale, magnif, cols, rows or a reversed box.
    pub const NUMBER: u8 = 10;
    /// A string with a wrong end or a zero byte inside.
    pub const STRING: u8 = 11;
    /// The first and last point of a POLY differ.
    pub const OPEN_POLY: u8 = 12;
    /// Bytes after ENDLIB.
    pub const AFTER_ENDLIB: u8 = 13;
    /// Less room than what would be written.
    pub const ROOM: u8 = 14;
    /// The record would pass 65,534 bytes.
    pub const TOO_LONG: u8 = 15;
    /// Forged place, no good LAYER at the offset asked, or no such cell.
    pub const FORGED: u8 = 16;
}

/// A refusal: its number and the offset it names.
#[derive(Clone, Copy, Debug, PartialEq, Eq)]
pub struct Refusal {
    pub number: u8,
    pub at: Option<usize>,
}

impl Refusal {
    pub const fn at(number: u8, at: usize) -> Self {
        Refusal {
            number,
            at: Some(at),
        }
    }

    pub const fn nowhere(number: u8) -> Self {
        Refusal { number, at: None }
    }
}

impl fmt::Display for Refusal {
    fn fmt(&self, f: &mut fmt::Formatter<'_>) -> fmt::Result {
        match self.at {
            Some(at) => write!(f, "refused {} at {}", self.number, at),
            None => write!(f, "refused {}", self.number),
        }
    }
}

/// What the whole-file checker answers.
#[derive(Clone, Copy, Debug, PartialEq, Eq)]
pub enum Verdict {
    Accepted,
    Refused { number: u8, at: usize },
}

impl From<Result<(), Refusal>> for Verdict {
    fn from(result: Result<(), Refusal>) -> Self {
        match result {
            Ok(()) => Verdict::Accepted,
            Err(Refusal { number, at }) => Verdict::Refused {
                number,
                at: at.expect("refusals 1 to 13 name a place"),
            },
        }
    }
}
