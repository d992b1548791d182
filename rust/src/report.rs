//! What a call answers.

use std::error::Error;
use std::fmt;

use crate::rle::{RleError, RlePixelFormat};

/// What came out of one call of [`decompress_into`](crate::decompress_into).
///
/// `orders` ≤ `pixels` ≤ width × height always holds, and `pixels` is at most 26,214 times the
/// stream's length.
#[derive(Clone, Debug, PartialEq, Eq)]
#[must_use = "a refused or short stream leaves old pixels in the target"]
pub struct Report {
    /// The picture's format, or why decoding stopped.
    pub outcome: Result<RlePixelFormat, Refusal>,
    /// Pixels painted, also those before a refusal.
    pub pixels: usize,
    /// Orders whose last pixel was painted.
    pub orders: usize,
}

/// Why a call was refused.
///
/// The first four are tested in this order, before the stream is read; they change no byte of the
/// target. The others come from the stream; pixels painted before them stay.
///
/// [`expand`](crate::expand) answers only [`InvalidBpp`](Self::InvalidBpp) and
/// [`BufferTooShort`](Self::BufferTooShort).
#[derive(Clone, Debug, PartialEq, Eq)]
pub enum Refusal {
    /// The depth is none of 8, 15, 16 and 24 bits per pixel.
    InvalidBpp {
        /// The depth given.
        bpp: usize,
    },
    /// The width or the height is 0.
    EmptyImage,
    /// The width or the height is above 8,192.
    DimensionsTooLarge {
        /// The width given.
        width: usize,
        /// The height given.
        height: usize,
    },
    /// The target is shorter than the picture; in [`expand`](crate::expand), the palette is shorter
    /// than 256 entries.
    BufferTooShort {
        /// Bytes of the picture or of 256 entries.
        needed: usize,
        /// Bytes of the target or of the palette.
        given: usize,
    },
    /// A header byte is no order.
    BadOrderCode,
    /// The stream ends inside an order.
    NotEnoughBytes {
        /// Bytes that the order reads next.
        expected: usize,
        /// Bytes left in the stream.
        actual: usize,
    },
    /// An order goes past the end of the picture.
    InvalidImageSize {
        /// Bytes left in the picture.
        maximum_additional: usize,
        /// Bytes that the order, or the next mask of its image, would write.
        required_additional: usize,
    },
    /// A run length of two bytes is 0.
    UnexpectedZeroLength,
}

impl Refusal {
    /// Reads a refusal's number and the two numbers that belong to it.
    // Inlined into `expand`, it would load both before the refusal is tested, which stalls.
    #[cold]
    #[inline(never)]
    pub(crate) fn from_numbers(refusal: u64, first: u64, second: u64) -> Self {
        let (first, second) = (number(first), number(second));
        match refusal {
            1 => Self::InvalidBpp { bpp: first },
            2 => Self::EmptyImage,
            3 => Self::DimensionsTooLarge {
                width: first,
                height: second,
            },
            4 => Self::BufferTooShort {
                needed: first,
                given: second,
            },
            5 => Self::BadOrderCode,
            6 => Self::NotEnoughBytes {
                expected: first,
                actual: second,
            },
            7 => Self::InvalidImageSize {
                maximum_additional: first,
                required_additional: second,
            },
            8 => Self::UnexpectedZeroLength,
            other => unreachable!("the library has no refusal {other}"),
        }
    }

    /// Returns the error of the module [`rle`](crate::rle), or the bytes needed and given, for
    /// which it has none: it makes its targets as long as the picture.
    pub(crate) fn into_rle_error(self) -> Result<RleError, (usize, usize)> {
        Ok(match self {
            Self::InvalidBpp { bpp } => RleError::InvalidBpp { bpp },
            Self::EmptyImage => RleError::EmptyImage,
            Self::DimensionsTooLarge { width, height } => {
                RleError::DimensionsTooLarge { width, height }
            }
            Self::BufferTooShort { needed, given } => return Err((needed, given)),
            Self::BadOrderCode => RleError::BadOrderCode,
            Self::NotEnoughBytes { expected, actual } => {
                RleError::NotEnoughBytes { expected, actual }
            }
            Self::InvalidImageSize {
                maximum_additional,
                required_additional,
            } => RleError::InvalidImageSize {
                maximum_additional,
                required_additional,
            },
            Self::UnexpectedZeroLength => RleError::UnexpectedZeroLength,
        })
    }
}

impl fmt::Display for Refusal {
    fn fmt(&self, f: &mut fmt::Formatter<'_>) -> fmt::Result {
        match self.clone().into_rle_error() {
            Ok(error) => error.fmt(f),
            Err((needed, given)) => write!(
                f,
                "the buffer is too short: {needed} bytes are needed, {given} were given"
            ),
        }
    }
}

impl Error for Refusal {}

impl Report {
    /// Reads the library's report; the places and numbers are those of `include/nulambiro.h`.
    pub(crate) fn from_numbers(report: [u64; 8]) -> Self {
        let [bpp, refusal, first, second, pixels, orders, ..] = report;
        Self {
            outcome: match refusal {
                0 => Ok(format(bpp)),
                _ => Err(Refusal::from_numbers(refusal, first, second)),
            },
            pixels: number(pixels),
            orders: number(orders),
        }
    }
}

fn format(bpp: u64) -> RlePixelFormat {
    match bpp {
        8 => RlePixelFormat::Rgb8,
        15 => RlePixelFormat::Rgb15,
        16 => RlePixelFormat::Rgb16,
        24 => RlePixelFormat::Rgb24,
        other => unreachable!("the library has no format of {other} bits per pixel"),
    }
}

/// A number of a report.
pub(crate) fn number(value: u64) -> usize {
    usize::try_from(value).expect("usize has 64 bits here")
}
