//! The C interface of the encoder, as `include/nulambiro.h` documents it.

extern "C" {
    pub(crate) fn nulambiro_compress(
        src: *const u8,
        src_len: usize,
        dst: *mut u8,
        dst_len: usize,
        width: usize,
        height: usize,
        bpp: usize,
        report: *mut [u64; 8],
    );
    fn nulambiro_compress_bound(width: usize, height: usize, bpp: usize) -> usize;
}

/// Returns the report: 0, refusal, first, second, the stream's length.
pub(crate) fn compress(
    src: &[u8],
    dst: &mut [u8],
    width: usize,
    height: usize,
    bpp: usize,
) -> [u64; 8] {
    let mut report = [0; 8];
    // SAFETY: both slices are valid for their lengths, the report has its eight places, and the
    // borrows keep the three from overlapping. The library asks nothing of the other numbers.
    unsafe {
        nulambiro_compress(
            src.as_ptr(),
            src.len(),
            dst.as_mut_ptr(),
            dst.len(),
            width,
            height,
            bpp,
            &mut report,
        );
    }
    report
}

pub(crate) fn compress_bound(width: usize, height: usize, bpp: usize) -> usize {
    // SAFETY: the library asks nothing of the numbers.
    unsafe { nulambiro_compress_bound(width, height, bpp) }
}

#[cfg(test)]
mod tests {
    use super::nulambiro_compress;
    use std::ptr;

    #[test]
    fn null_pixels_are_an_empty_buffer() {
        let (mut output, mut report) = ([0x55; 4], [u64::MAX; 8]);
        // SAFETY: the pixels' length is 0; output and report are valid and apart.
        unsafe {
            let dst = output.as_mut_ptr();
            nulambiro_compress(ptr::null(), 0, dst, 4, 4, 2, 8, &mut report);
        }
        assert_eq!(report, [0, 4, 8, 0, 0, 0, 0, 0]);
        assert_eq!(output, [0x55; 4]);
    }

    #[test]
    fn null_output_has_no_space() {
        let (pixels, mut report) = ([7; 8], [u64::MAX; 8]);
        // SAFETY: the output's length is 0; pixels and report are valid and apart.
        unsafe {
            let dst = ptr::null_mut();
            nulambiro_compress(pixels.as_ptr(), 8, dst, 0, 4, 2, 8, &mut report);
        }
        assert_eq!(report, [0, 14, 0, 0, 0, 0, 0, 0]);
    }

    #[test]
    fn null_pointers_do_not_matter_where_the_depth_is_refused() {
        let mut report = [u64::MAX; 8];
        // SAFETY: both lengths are 0; the report has its eight places.
        unsafe { nulambiro_compress(ptr::null(), 0, ptr::null_mut(), 0, 4, 2, 9, &mut report) };
        assert_eq!(report, [0, 1, 9, 0, 0, 0, 0, 0]);
    }

    #[test]
    fn all_places_of_the_report_are_written() {
        let (pixels, mut output, mut report) = ([7; 8], [0x55; 4], [u64::MAX; 8]);
        // SAFETY: pixels, output and report are valid for their lengths, and apart.
        unsafe {
            let dst = output.as_mut_ptr();
            nulambiro_compress(pixels.as_ptr(), 8, dst, 4, 4, 2, 8, &mut report);
        }
        assert_eq!(report, [0, 0, 0, 0, 2, 0, 0, 0]);
        assert_eq!(output, [0x68, 7, 0x55, 0x55]);
    }
}
