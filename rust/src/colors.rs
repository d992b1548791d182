//! Colors of decoded pictures, and the row to show.

use crate::ffi_colors::{self, NO_ENTRY};
use crate::report::number;
use crate::Refusal;

/// Returns the color of one pixel: blue, green, red.
///
/// `pixel` has the pixel's bytes as they stand in the picture; bytes that the depth does not use
/// are ignored. At 24 bits per pixel (`bpp`) they are the color. At 15 `bpp` a pixel has five bits
/// for each channel, at 16 `bpp` five for blue, six for green and five for red, blue lowest. The
/// high bits of a channel are repeated below it: c becomes 8 × c + floor(c / 4) with five bits and
/// 4 × c + floor(c / 16) with six, so that white is 255, 255, 255 at 15, 16 and 24 `bpp`. At 8
/// `bpp` the pixel is an index into `palette`, 256 entries of blue, green and red; other depths do
/// not look at it.
///
/// ```
/// // The top five of 15 bits are red.
/// assert_eq!(nulambiro::expand([0x00, 0x7C, 0x00], 15, &[]), Ok([0, 0, 255]));
/// ```
///
/// # Errors
///
/// [`Refusal::InvalidBpp`], and at 8 `bpp` alone [`Refusal::BufferTooShort`] for a palette of fewer
/// than 768 bytes.
#[inline]
pub fn expand(pixel: [u8; 3], bpp: usize, palette: &[u8]) -> Result<[u8; 3], Refusal> {
    let [refusal, first, second, blue, green, red, ..] = ffi_colors::expand(pixel, bpp, palette);
    match refusal {
        // A channel is a byte by the contract.
        0 => Ok([blue, green, red].map(|channel| channel as u8)),
        _ => Err(Refusal::from_numbers(refusal, first, second)),
    }
}

/// Returns the lowest index whose palette entry equals `color`, blue, green and red.
///
/// `None` exactly if no entry does, or the palette has fewer than 768 bytes. Bytes past the 256
/// entries are ignored.
///
/// ```
/// let mut palette = [0; 768];
/// palette[3 * 7..][..3].copy_from_slice(&[10, 20, 30]);
/// palette[3 * 9..][..3].copy_from_slice(&[10, 20, 30]);
/// assert_eq!(nulambiro::palette_look(&palette, [10, 20, 30]), Some(7));
/// assert_eq!(nulambiro::palette_look(&palette, [30, 20, 10]), None);
/// ```
#[must_use]
pub fn palette_look(palette: &[u8], color: [u8; 3]) -> Option<u8> {
    match ffi_colors::palette_look(palette, color) {
        NO_ENTRY => None,
        index => Some(u8::try_from(index).expect("an index is below 256")),
    }
}

/// A picture of which the first `pixels` pixels are painted, as [`same_picture`] compares it.
#[derive(Clone, Copy, Debug)]
pub struct Picture<'a> {
    /// The picture's bytes; more of them are ignored.
    pub bytes: &'a [u8],
    /// Pixels painted.
    pub pixels: usize,
    /// Pixels in a row.
    pub width: usize,
    /// Rows.
    pub height: usize,
    /// Bits per pixel.
    pub bpp: usize,
}

/// Returns whether two pictures are the same.
///
/// That is so exactly if both are valid, their bits per pixel, widths, heights and pixel counts
/// agree, and so do the stored bytes of all painted pixels. Every bit of these bytes counts, also
/// the top bit at 15 `bpp`, which has no color. Painted pixels of the same pictures have the same
/// colors, but pictures with the same colors need not be the same. A picture is valid if its depth
/// and sizes are good, its slice has space for the whole picture, at most width × height pixels are
/// painted, and at 8 `bpp` the palette has at least 768 bytes.
///
/// ```
/// use nulambiro::{same_picture, Picture};
///
/// // Of two pixels, the first is painted.
/// let blue = Picture { bytes: &[0x1F, 0x00, 1, 1], pixels: 1, width: 2, height: 1, bpp: 15 };
/// assert!(same_picture(&blue, &Picture { bytes: &[0x1F, 0x00, 2, 2], ..blue }, &[]));
/// // The top bit has no color, and counts.
/// assert!(!same_picture(&blue, &Picture { bytes: &[0x1F, 0x80, 1, 1], ..blue }, &[]));
/// assert!(!same_picture(&blue, &Picture { bpp: 16, ..blue }, &[]));
/// ```
#[must_use]
pub fn same_picture(a: &Picture, b: &Picture, palette: &[u8]) -> bool {
    ffi_colors::same_picture(a, b, palette)
}

/// Returns the row of a picture that is to be shown: row `row` of the new picture, if it is wholly
/// painted, else the same part of the picture on screen.
///
/// The row is wholly painted if (`row` + 1) × `width` is at most `pixels`, the count that
/// [`decompress_into`](crate::decompress_into) reported; `pixels` may be any number. The part is
/// empty, and one of the new picture, if the depth or the sizes are bad, `row` is not below
/// `height`, or either slice is shorter than the picture.
///
/// ```
/// use nulambiro::{decompress_into, row_to_show};
///
/// let (screen, mut new) = ([0x55; 8], [0x00; 8]);
/// // Six of eight pixels: the second row is not whole.
/// let pixels = decompress_into(&[0x26], &mut new, 4, 2, 8).pixels;
/// assert_eq!(row_to_show(&new, pixels, &screen, 8, 4, 2, 0), [0xFF; 4]);
/// assert_eq!(row_to_show(&new, pixels, &screen, 8, 4, 2, 1), [0x55; 4]);
/// ```
#[must_use]
pub fn row_to_show<'a>(
    new: &'a [u8],
    pixels: usize,
    screen: &'a [u8],
    bpp: usize,
    width: usize,
    height: usize,
    row: usize,
) -> &'a [u8] {
    let [on_screen, start, len, ..] =
        ffi_colors::row_to_show(new.len(), pixels, screen.len(), bpp, width, height, row);
    let picture = if on_screen == 0 { new } else { screen };
    &picture[number(start)..][..number(len)]
}
