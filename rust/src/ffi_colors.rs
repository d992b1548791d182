//! The C interface of the color functions, as `include/nulambiro.h` documents it.

use crate::Picture;

/// What `nulambiro_palette_look` returns if no entry equals the color.
pub(crate) const NO_ENTRY: usize = 256;

extern "C" {
    fn nulambiro_expand(
        low: u8,
        middle: u8,
        high: u8,
        bpp: usize,
        palette: *const u8,
        palette_len: usize,
        report: *mut [u64; 8],
    );
    fn nulambiro_palette_look(
        palette: *const u8,
        palette_len: usize,
        blue: u8,
        green: u8,
        red: u8,
    ) -> usize;
    fn nulambiro_same_picture(
        a: *const u8,
        a_len: usize,
        a_pixels: usize,
        a_width: usize,
        a_height: usize,
        a_bpp: usize,
        b: *const u8,
        b_len: usize,
        b_pixels: usize,
        b_width: usize,
        b_height: usize,
        b_bpp: usize,
        palette: *const u8,
        palette_len: usize,
    ) -> u8;
    fn nulambiro_row_to_show(
        new_len: usize,
        pixels: usize,
        screen_len: usize,
        bpp: usize,
        width: usize,
        height: usize,
        row: usize,
        report: *mut [u64; 8],
    );
}

/// Returns the report: refusal, first, second, blue, green, red.
#[inline]
pub(crate) fn expand(pixel: [u8; 3], bpp: usize, palette: &[u8]) -> [u64; 8] {
    let mut report = [0; 8];
    let [low, middle, high] = pixel;
    // SAFETY: the palette is valid for its length, the report has its eight places, and the
    // borrows keep the two from overlapping.
    unsafe {
        nulambiro_expand(
            low,
            middle,
            high,
            bpp,
            palette.as_ptr(),
            palette.len(),
            &mut report,
        );
    }
    report
}

pub(crate) fn palette_look(palette: &[u8], [blue, green, red]: [u8; 3]) -> usize {
    // SAFETY: the palette is valid for its length.
    unsafe { nulambiro_palette_look(palette.as_ptr(), palette.len(), blue, green, red) }
}

pub(crate) fn same_picture(a: &Picture, b: &Picture, palette: &[u8]) -> bool {
    // SAFETY: the three slices are valid for their lengths, and are only read.
    let same = unsafe {
        nulambiro_same_picture(
            a.bytes.as_ptr(),
            a.bytes.len(),
            a.pixels,
            a.width,
            a.height,
            a.bpp,
            b.bytes.as_ptr(),
            b.bytes.len(),
            b.pixels,
            b.width,
            b.height,
            b.bpp,
            palette.as_ptr(),
            palette.len(),
        )
    };
    same == 1
}

/// Returns the report: whether the part is on screen, its start and its length.
pub(crate) fn row_to_show(
    new_len: usize,
    pixels: usize,
    screen_len: usize,
    bpp: usize,
    width: usize,
    height: usize,
    row: usize,
) -> [u64; 8] {
    let mut report = [0; 8];
    // SAFETY: the report has its eight places.
    unsafe {
        nulambiro_row_to_show(
            new_len,
            pixels,
            screen_len,
            bpp,
            width,
            height,
            row,
            &mut report,
        );
    }
    report
}

#[cfg(test)]
mod tests {
    use super::{nulambiro_expand, nulambiro_palette_look, nulambiro_same_picture, NO_ENTRY};
    use std::ptr::null;

    #[test]
    fn null_palette_is_an_empty_palette() {
        let mut report = [u64::MAX; 8];
        // SAFETY: a null pointer is allowed with a length of 0; the report has its eight places.
        unsafe { nulambiro_expand(1, 2, 3, 8, null(), 0, &mut report) };
        assert_eq!(report, [4, 768, 0, 0, 0, 0, 0, 0]);
        // SAFETY: as above.
        unsafe { nulambiro_expand(1, 2, 3, 24, null(), 0, &mut report) };
        assert_eq!(report, [0, 0, 0, 1, 2, 3, 0, 0]);
        // SAFETY: a null pointer is allowed with a length of 0.
        let index = unsafe { nulambiro_palette_look(null(), 0, 0, 0, 0) };
        assert_eq!(index, NO_ENTRY);
    }

    #[test]
    fn null_picture_has_no_space() {
        let bytes = [1_u8, 2, 3];
        // One pixel of 24 bits, of which none is painted.
        let same = |a, a_len, b, b_len| {
            // SAFETY: the pointers are null with a length of 0, or have the bytes' length.
            unsafe {
                nulambiro_same_picture(a, a_len, 0, 1, 1, 24, b, b_len, 0, 1, 1, 24, null(), 0)
            }
        };
        let pixel = bytes.as_ptr();
        assert_eq!(same(pixel, 3, pixel, 3), 1);
        assert_eq!(same(pixel, 3, null(), 0), 0);
        assert_eq!(same(null(), 0, pixel, 3), 0);
        assert_eq!(same(null(), 0, null(), 0), 0);
    }
}
