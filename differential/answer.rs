//! What a decoder answers, as the numbers of `include/nulambiro.h`.

/// Format or refusal, and the refusal's two numbers.
#[derive(Clone, Copy, Debug, PartialEq, Eq)]
pub struct Answer {
    pub format: u64,
    pub refusal: u64,
    pub first: u64,
    pub second: u64,
}

pub fn decoded(format: u64) -> Answer {
    Answer {
        format,
        refusal: 0,
        first: 0,
        second: 0,
    }
}

pub fn refused(refusal: u64, first: usize, second: usize) -> Answer {
    Answer {
        format: 0,
        refusal,
        first: first as u64,
        second: second as u64,
    }
}

/// Turns a result of the module that is named into an [`Answer`]. `rle.rs` and the package's module
/// `rle` have types of the same names, so one list serves both.
macro_rules! answer {
    ($($module:ident)::+, $result:expr) => {{
        use crate::answer::{decoded, refused};
        use $($module)::+::{RleError, RlePixelFormat};
        match $result {
            Ok(RlePixelFormat::Rgb8) => decoded(8),
            Ok(RlePixelFormat::Rgb15) => decoded(15),
            Ok(RlePixelFormat::Rgb16) => decoded(16),
            Ok(RlePixelFormat::Rgb24) => decoded(24),
            Err(RleError::InvalidBpp { bpp }) => refused(1, bpp, 0),
            Err(RleError::EmptyImage) => refused(2, 0, 0),
            Err(RleError::DimensionsTooLarge { width, height }) => refused(3, width, height),
            Err(RleError::BadOrderCode) => refused(5, 0, 0),
            Err(RleError::NotEnoughBytes { expected, actual }) => refused(6, expected, actual),
            Err(RleError::InvalidImageSize {
                maximum_additional,
                required_additional,
            }) => refused(7, maximum_additional, required_additional),
            Err(RleError::UnexpectedZeroLength) => refused(8, 0, 0),
        }
    }};
}
pub(crate) use answer;
