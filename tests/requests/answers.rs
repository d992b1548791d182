//! Answers as text.

use nulambiro::{CompressError, Refusal, ResumeError};
use std::fmt::Write;

pub fn hex(bytes: &[u8]) -> String {
    bytes.iter().fold(String::new(), |mut text, byte| {
        write!(text, "{byte:02x}").expect("a string takes all that is written");
        text
    })
}

/// The answer to a case, as text.
pub struct Answer {
    pub text: String,
    /// Only a part can be compared: the text has zeros in place of the rest.
    pub in_part: bool,
}

/// The three lines of a refusal, or of none.
pub fn refusal(refusal: Option<&impl Numbers>) -> String {
    let (number, first, second) = refusal.map_or((0, 0, 0), Numbers::numbers);
    format!("refusal={number}\nfirst={first}\nsecond={second}\n")
}

/// A refusal's number, and the two numbers that belong to it.
pub trait Numbers {
    fn numbers(&self) -> (u8, usize, usize);
}

impl Numbers for Refusal {
    fn numbers(&self) -> (u8, usize, usize) {
        match *self {
            Self::InvalidBpp { bpp } => (1, bpp, 0),
            Self::EmptyImage => (2, 0, 0),
            Self::DimensionsTooLarge { width, height } => (3, width, height),
            Self::BufferTooShort { needed, given } => (4, needed, given),
            Self::BadOrderCode => (5, 0, 0),
            Self::NotEnoughBytes { expected, actual } => (6, expected, actual),
            Self::InvalidImageSize {
                maximum_additional,
                required_additional,
            } => (7, maximum_additional, required_additional),
            Self::UnexpectedZeroLength => (8, 0, 0),
        }
    }
}

impl Numbers for ResumeError {
    fn numbers(&self) -> (u8, usize, usize) {
        match self {
            Self::Refused(refusal) => refusal.numbers(),
            Self::BadState => (15, 0, 0),
        }
    }
}

impl Numbers for CompressError {
    fn numbers(&self) -> (u8, usize, usize) {
        match *self {
            Self::InvalidBpp { bpp } => (1, bpp, 0),
            Self::EmptyImage => (2, 0, 0),
            Self::DimensionsTooLarge { width, height } => (3, width, height),
            Self::PixelsTooShort { needed, given } => (4, needed, given),
            Self::OutputTooShort => (14, 0, 0),
        }
    }
}
