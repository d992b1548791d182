//! Pictures to streams.

use std::error::Error;
use std::fmt;

use crate::ffi_encoder;
use crate::report::number;
use crate::rle::RleError;

/// Encodes a picture into the first bytes of `output`; returns the stream's length.
///
/// The picture is the first `width` × `height` pixels of `pixels`, row after row, low byte first,
/// as [`decompress_into`](crate::decompress_into) paints it; more bytes are not looked at. A
/// picture has exactly one stream:
///
/// - From left to right, where at least 3 equal pixels start or, from row 1 on, at least 3 pixels
///   that equal those above them, the longer stretch becomes a color run or a background run; a
///   background run if they are as long. Pixels are compared by their stored bytes, and stretches
///   measured up to 65,535 pixels.
/// - A background run never directly follows another one: the equal pixels become a color run
///   there, and where fewer than 3 start, one pixel goes to a color image.
/// - All pixels between runs form color images.
/// - No order has more than 65,535 pixels, and each has the shortest form of its length.
///
/// [`decompress_into`](crate::decompress_into) gives every picture back from its stream: whole, and
/// each byte the same. Bytes of `output` past the stream stay as they were. With an output of
/// [`compress_bound`] bytes the picture is gone through once; with a shorter one the stream is
/// measured first.
///
/// ```
/// use nulambiro::{compress_bound, compress_into, decompress_into};
///
/// let pixels = [7, 7, 7, 1, 7, 7, 7, 2];
/// let mut output = vec![0x55; compress_bound(4, 2, 8)];
/// let length = compress_into(&pixels, &mut output, 4, 2, 8)?;
/// // A color run of three pixels, an image of one, three pixels as those above, an image of one.
/// assert_eq!(output[..length], [0x63, 7, 0x81, 1, 0x03, 0x81, 2]);
///
/// let mut picture = [0; 8];
/// let report = decompress_into(&output[..length], &mut picture, 4, 2, 8);
/// assert_eq!((report.pixels, picture), (8, pixels));
/// # Ok::<(), nulambiro::CompressError>(())
/// ```
///
/// # Errors
///
/// The first [`CompressError`] that applies, in the order in which they stand there. `output` is
/// then as it was.
pub fn compress_into(
    pixels: &[u8],
    output: &mut [u8],
    width: usize,
    height: usize,
    bpp: usize,
) -> Result<usize, CompressError> {
    let [_, refusal, first, second, length, ..] =
        ffi_encoder::compress(pixels, output, width, height, bpp);
    match refusal {
        0 => Ok(number(length)),
        _ => Err(CompressError::from_numbers(refusal, first, second)),
    }
}

/// Encodes a picture; returns its stream, that of [`compress_into`].
///
/// The vector's capacity is [`compress_bound`], which may be far more than the stream: shrink what
/// is to be kept.
///
/// ```
/// use nulambiro::{compress, decompress_into};
///
/// // White rows of 300 pixels at 16 bits per pixel.
/// let pixels = [0xFF; 2 * 300 * 200];
/// let stream = compress(&pixels, 300, 200, 16)?;
/// assert_eq!(stream, [0xF3, 0x60, 0xEA, 0xFF, 0xFF]);
///
/// let mut picture = vec![0; pixels.len()];
/// let report = decompress_into(&stream, &mut picture, 300, 200, 16);
/// assert!(report.outcome.is_ok() && report.pixels == 300 * 200);
/// assert_eq!(picture, pixels);
/// # Ok::<(), nulambiro::CompressError>(())
/// ```
///
/// # Errors
///
/// As [`compress_into`], but never [`CompressError::OutputTooShort`].
pub fn compress(
    pixels: &[u8],
    width: usize,
    height: usize,
    bpp: usize,
) -> Result<Vec<u8>, CompressError> {
    let mut output = vec![0; compress_bound(width, height, bpp)];
    let length = compress_into(pixels, &mut output, width, height, bpp)?;
    output.truncate(length);
    Ok(output)
}

/// Returns the length of the longest stream that a picture of this size and depth can have, or 0
/// where [`compress_into`] refuses these.
///
/// With n pixels of D bytes it is n + floor((n + 3) / 35) + 1 at 8 bits per pixel. At the other
/// depths it is n × D + 3 × floor(n / 65,535), and for the pixels that are left 1 more if they are
/// 1 to 31, 2 if they are 32 to 287, and 3 if they are more. No less serves all pictures.
///
/// ```
/// assert_eq!(nulambiro::compress_bound(64, 64, 8), 4096 + 117 + 1);
/// assert_eq!(nulambiro::compress_bound(64, 64, 24), 3 * 4096 + 3);
/// assert_eq!(nulambiro::compress_bound(64, 64, 32), 0);
/// ```
#[must_use]
pub fn compress_bound(width: usize, height: usize, bpp: usize) -> usize {
    ffi_encoder::compress_bound(width, height, bpp)
}

/// Why a picture was not encoded, in the order in which this is tested.
#[derive(Clone, Debug, PartialEq, Eq)]
pub enum CompressError {
    /// The depth is none of 8, 15, 16 and 24 bits per pixel.
    InvalidBpp {
        /// The depth given.
        bpp: usize,
    },
    /// The width or the height is 0.
    EmptyImage,
    /// The width or the height is above 8,192.
    DimensionsTooLarge {
        /// The width given.
        width: usize,
        /// The height given.
        height: usize,
    },
    /// There are fewer pixels than the picture has.
    PixelsTooShort {
        /// Bytes of the picture.
        needed: usize,
        /// Bytes given.
        given: usize,
    },
    /// The stream is longer than the output.
    OutputTooShort,
}

impl CompressError {
    /// Reads a refusal's number and the two numbers that belong to it.
    fn from_numbers(refusal: u64, first: u64, second: u64) -> Self {
        let (first, second) = (number(first), number(second));
        match refusal {
            1 => Self::InvalidBpp { bpp: first },
            2 => Self::EmptyImage,
            3 => Self::DimensionsTooLarge {
                width: first,
                height: second,
            },
            4 => Self::PixelsTooShort {
                needed: first,
                given: second,
            },
            14 => Self::OutputTooShort,
            other => unreachable!("the encoder has no refusal {other}"),
        }
    }
}

impl fmt::Display for CompressError {
    fn fmt(&self, f: &mut fmt::Formatter<'_>) -> fmt::Result {
        match *self {
            // Depth and sizes are refused in the words of the decoder.
            Self::InvalidBpp { bpp } => RleError::InvalidBpp { bpp }.fmt(f),
            Self::EmptyImage => RleError::EmptyImage.fmt(f),
            Self::DimensionsTooLarge { width, height } => {
                RleError::DimensionsTooLarge { width, height }.fmt(f)
            }
            Self::PixelsTooShort { needed, given } => write!(
                f,
                "there are too few pixels: the picture has {needed} bytes, {given} were given"
            ),
            Self::OutputTooShort => write!(f, "the stream is longer than the output"),
        }
    }
}

impl Error for CompressError {}
