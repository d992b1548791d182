//! Decodes and encodes interleaved RLE bitmaps, the compressed rectangles of the Remote Desktop
//! Protocol (MS-RDPBCGR 2.2.9.1.1.3.1.2.4 and 3.1.9), by the proved library `libnulambiro.a`.
//!
//! There are three ways to call the decoder:
//!
//! - [`decompress_into`] decodes into a slice that the caller lends, allocates nothing and reports
//!   how many pixels were painted and how many orders completed, also after a refusal.
//! - The module [`rle`] has the functions and types of IronRDP's module `ironrdp_graphics::rle`,
//!   under the same names. Code that uses that module needs only another `use`.
//! - A [`Decoder`] stops after some orders, so that the picture can be shown and drawn on in
//!   between, and goes on; the [`State`] in which it stops can be kept.
//!
//! [`compress`] and, into a slice that the caller lends, [`compress_into`] encode a picture as a
//! stream that the decoder gives back whole, each byte the same.
//!
//! [`order_record`] and, for all of them one after the other, [`order_records`] tell how the orders
//! of a stream were written: an order's header, and where its length stands.
//!
//! Between decoded pictures and a screen stand [`expand`], [`palette_look`], [`same_picture`] and
//! [`row_to_show`].
//!
//! ```
//! use nulambiro::{decompress_into, picture_len, RlePixelFormat};
//!
//! // Two orders: a row of white, then two pixels that invert the row above.
//! let stream = [0x24, 0x22];
//! let mut target = vec![0x55; picture_len(4, 2, 8)?];
//! let report = decompress_into(&stream, &mut target, 4, 2, 8);
//!
//! assert_eq!(report.outcome, Ok(RlePixelFormat::Rgb8));
//! assert_eq!((report.orders, report.pixels), (2, 6));
//! assert_eq!(target, [0xFF, 0xFF, 0xFF, 0xFF, 0x00, 0x00, 0x55, 0x55]);
//! # Ok::<(), nulambiro::Refusal>(())
//! ```
//!
//! A picture to a stream, and back:
//!
//! ```
//! use nulambiro::{compress, decompress_into};
//!
//! let pixels = [7, 7, 7, 7, 7, 7, 7, 9];
//! let stream = compress(&pixels, 4, 2, 8)?;
//! assert_eq!(stream, [0x67, 7, 0x81, 9]);
//!
//! let mut target = [0x55; 8];
//! assert_eq!(decompress_into(&stream, &mut target, 4, 2, 8).pixels, 8);
//! assert_eq!(target, pixels);
//! # Ok::<(), nulambiro::CompressError>(())
//! ```
//!
//! The orders of a stream, by their headers and where their lengths stand:
//!
//! ```
//! use nulambiro::{order_records, LengthPlace};
//!
//! // Both runs have four pixels. The second one takes two bytes more than it has to.
//! let stream = [0x24, 0xF1, 0x04, 0x00];
//! let orders: Vec<_> = order_records(&stream, 4, 2, 8)
//!     .map(|record| (record.header, record.place))
//!     .collect();
//! assert_eq!(orders, [(0x24, LengthPlace::Header), (0xF1, LengthPlace::TwoBytes)]);
//! ```
//!
//! # Linking
//!
//! The build script takes `libnulambiro.a` from the folder that `NULAMBIRO_LIB_DIR` names, or from
//! where `tools/build nulambiro` writes it in the repository of this package.
#![deny(missing_docs)]
#![deny(unsafe_code)]

mod colors;
mod encoder;
#[allow(unsafe_code)]
mod ffi;
#[allow(unsafe_code)]
mod ffi_colors;
#[allow(unsafe_code)]
mod ffi_encoder;
#[allow(unsafe_code)]
mod ffi_orders;
#[allow(unsafe_code)]
mod ffi_pauses;
mod orders;
mod pauses;
mod report;
pub mod rle;

pub use colors::{expand, palette_look, row_to_show, same_picture, Picture};
pub use encoder::{compress, compress_bound, compress_into, CompressError};
pub use orders::{order_record, order_records, LengthPlace, OrderRecord, OrderRecords};
pub use pauses::{Decoder, Progress, ResumeError, State};
pub use report::{Refusal, Report};
pub use rle::RlePixelFormat;

/// Decodes `src` into the first bytes of `dst`.
///
/// The picture has `width` × `height` pixels of D bytes each, row after row in the order of the
/// stream, low byte first; D is 1 at 8 bits per pixel (`bpp`), 2 at 15 and 16, and 3 at 24.
///
/// After the call the first `pixels` × D bytes of `dst` are the painted pixels. They depend on the
/// stream, the sizes and the depth alone. All later bytes of `dst` are as before, so a stream that
/// ends early, or is refused, leaves the rest of an old picture in place. A stream that ends
/// between two orders is decoded, however few its pixels: compare
/// [`pixels`](Report::pixels) with `width` × `height` to know whether the picture is whole.
pub fn decompress_into(
    src: &[u8],
    dst: &mut [u8],
    width: usize,
    height: usize,
    bpp: usize,
) -> Report {
    Report::from_numbers(ffi::decompress(src, dst, width, height, bpp))
}

/// Returns how many bytes [`decompress_into`] needs for a picture of this size and depth.
///
/// ```
/// assert_eq!(nulambiro::picture_len(64, 64, 16), Ok(8192));
/// ```
///
/// # Errors
///
/// The first of [`Refusal::InvalidBpp`], [`Refusal::EmptyImage`] and
/// [`Refusal::DimensionsTooLarge`] that applies, as [`decompress_into`] would answer.
pub fn picture_len(width: usize, height: usize, bpp: usize) -> Result<usize, Refusal> {
    match decompress_into(&[], &mut [], width, height, bpp).outcome {
        Err(Refusal::BufferTooShort { needed, .. }) => Ok(needed),
        Err(refusal) => Err(refusal),
        Ok(_) => unreachable!("a picture has at least one byte"),
    }
}
