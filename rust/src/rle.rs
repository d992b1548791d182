//! The interface of IronRDP's module `ironrdp_graphics::rle`, decoded by this library.
//!
//! Names, signatures and results are those of that module, so `use nulambiro::rle` can take the
//! place of `use ironrdp_graphics::rle`. As there, a target that is not of the picture's length is
//! resized to it: a longer one is cut, a shorter one is filled up with zeros, and bytes that the
//! stream does not paint keep what they held. A refusal of depth or sizes leaves the target as it
//! is. The wording of the messages differs, and [`RleError`] is also an [`Error`].
//!
//! ```
//! use nulambiro::rle::{decompress, RleError, RlePixelFormat};
//!
//! let mut picture = Vec::new();
//! assert_eq!(decompress(&[0x24], &mut picture, 2, 2, 8), Ok(RlePixelFormat::Rgb8));
//! assert_eq!(picture, [0xFF; 4]);
//! assert_eq!(decompress(&[0xFF], &mut picture, 2, 2, 8), Err(RleError::BadOrderCode));
//! ```

use std::error::Error;
use std::fmt;

use crate::{decompress_into, picture_len, Refusal};

/// The pixels of a decoded picture, named by their bits.
#[derive(Clone, Copy, Debug, PartialEq, Eq)]
pub enum RlePixelFormat {
    /// 24 bits: three bytes.
    Rgb24,
    /// 16 bits: two bytes.
    Rgb16,
    /// 15 bits: two bytes, the top bit unused.
    Rgb15,
    /// 8 bits: an index into a palette.
    Rgb8,
}

/// Decodes `src` to `dst`, resized to a picture of `width` × `height` pixels of `bpp` bits.
///
/// # Errors
///
/// Depth and sizes are tested first, in the order of [`Refusal`]; they leave `dst` as it is. After
/// an error in the stream `dst` is resized, and the pixels painted before it stay.
pub fn decompress(
    src: &[u8],
    dst: &mut Vec<u8>,
    width: usize,
    height: usize,
    bpp: usize,
) -> Result<RlePixelFormat, RleError> {
    let needed = picture_len(width, height, bpp).map_err(rle_error)?;
    dst.resize(needed, 0);
    decompress_into(src, dst, width, height, bpp)
        .outcome
        .map_err(rle_error)
}

fn rle_error(refusal: Refusal) -> RleError {
    refusal
        .into_rle_error()
        .expect("the target is as long as the picture")
}

/// Decodes a picture of 24 bits per pixel, see [`decompress`].
pub fn decompress_24_bpp(
    src: &[u8],
    dst: &mut Vec<u8>,
    width: usize,
    height: usize,
) -> Result<RlePixelFormat, RleError> {
    decompress(src, dst, width, height, 24)
}

/// Decodes a picture of 16 bits per pixel, see [`decompress`].
pub fn decompress_16_bpp(
    src: &[u8],
    dst: &mut Vec<u8>,
    width: usize,
    height: usize,
) -> Result<RlePixelFormat, RleError> {
    decompress(src, dst, width, height, 16)
}

/// Decodes a picture of 15 bits per pixel, see [`decompress`].
pub fn decompress_15_bpp(
    src: &[u8],
    dst: &mut Vec<u8>,
    width: usize,
    height: usize,
) -> Result<RlePixelFormat, RleError> {
    decompress(src, dst, width, height, 15)
}

/// Decodes a picture of 8 bits per pixel, see [`decompress`].
pub fn decompress_8_bpp(
    src: &[u8],
    dst: &mut Vec<u8>,
    width: usize,
    height: usize,
) -> Result<RlePixelFormat, RleError> {
    decompress(src, dst, width, height, 8)
}

/// Why a stream was not decoded. [`Refusal`] has the same, and one more for short targets.
#[derive(Debug, Clone, PartialEq, Eq)]
pub enum RleError {
    /// The depth is none of 8, 15, 16 and 24 bits per pixel.
    InvalidBpp {
        /// The depth given.
        bpp: usize,
    },
    /// A header byte is no order.
    BadOrderCode,
    /// The stream ends inside an order.
    NotEnoughBytes {
        /// Bytes that the order reads next.
        expected: usize,
        /// Bytes left in the stream.
        actual: usize,
    },
    /// An order goes past the end of the picture.
    InvalidImageSize {
        /// Bytes left in the picture.
        maximum_additional: usize,
        /// Bytes that the order, or the next mask of its image, would write.
        required_additional: usize,
    },
    /// The width or the height is 0.
    EmptyImage,
    /// A run length of two bytes is 0.
    UnexpectedZeroLength,
    /// The width or the height is above 8,192.
    DimensionsTooLarge {
        /// The width given.
        width: usize,
        /// The height given.
        height: usize,
    },
}

impl fmt::Display for RleError {
    fn fmt(&self, f: &mut fmt::Formatter<'_>) -> fmt::Result {
        match self {
            Self::InvalidBpp { bpp } => {
                write!(
                    f,
                    "{bpp} bits per pixel are not supported, only 8, 15, 16 and 24"
                )
            }
            Self::BadOrderCode => write!(f, "the stream has a header byte that is no order"),
            Self::NotEnoughBytes { expected, actual } => write!(
                f,
                "the stream ends inside an order: {expected} bytes expected, {actual} left"
            ),
            Self::InvalidImageSize {
                maximum_additional,
                required_additional,
            } => write!(
                f,
                "an order goes past the end of the picture: it writes {required_additional} bytes, \
                 {maximum_additional} are left"
            ),
            Self::EmptyImage => write!(f, "the picture is empty: its width or height is 0"),
            Self::UnexpectedZeroLength => write!(f, "an order has a two-byte run length of 0"),
            Self::DimensionsTooLarge { width, height } => write!(
                f,
                "the picture is too large: {width} x {height} pixels, but 8192 is the most each way"
            ),
        }
    }
}

impl Error for RleError {}
