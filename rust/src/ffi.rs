//! The C interface of the library, as `include/nulambiro.h` documents it.

#[cfg(not(target_pointer_width = "64"))]
compile_error!("libnulambiro.a is built for targets with 64-bit pointers");

extern "C" {
    pub(crate) fn nulambiro_decompress(
        src: *const u8,
        src_len: usize,
        dst: *mut u8,
        dst_len: usize,
        width: usize,
        height: usize,
        bpp: usize,
        report: *mut [u64; 8],
    );
}

/// Returns the report: format, refusal, first, second, pixels, orders.
pub(crate) fn decompress(
    src: &[u8],
    dst: &mut [u8],
    width: usize,
    height: usize,
    bpp: usize,
) -> [u64; 8] {
    let mut report = [0; 8];
    // SAFETY: both slices are valid for their lengths, the report has its eight places, and the
    // borrows keep the three from overlapping. The library asks nothing of the other numbers.
    unsafe {
        nulambiro_decompress(
            src.as_ptr(),
            src.len(),
            dst.as_mut_ptr(),
            dst.len(),
            width,
            height,
            bpp,
            &mut report,
        );
    }
    report
}

#[cfg(test)]
mod tests {
    use super::nulambiro_decompress;
    use std::ptr;

    fn with_null_pointers(bpp: usize) -> [u64; 8] {
        let mut report = [u64::MAX; 8];
        // SAFETY: null pointers are allowed with a length of 0; the report has its eight places.
        unsafe {
            nulambiro_decompress(ptr::null(), 0, ptr::null_mut(), 0, 4, 2, bpp, &mut report);
        }
        report
    }

    #[test]
    fn null_pointers_are_allowed_with_length_zero() {
        assert_eq!(with_null_pointers(8), [0, 4, 8, 0, 0, 0, 0, 0]);
        assert_eq!(with_null_pointers(9), [0, 1, 9, 0, 0, 0, 0, 0]);
    }

    #[test]
    fn null_stream_is_an_empty_stream() {
        let (mut target, mut report) = ([0x55; 8], [u64::MAX; 8]);
        // SAFETY: the stream's length is 0; target and report are valid and apart.
        unsafe {
            let dst = target.as_mut_ptr();
            nulambiro_decompress(ptr::null(), 0, dst, 8, 4, 2, 8, &mut report);
        }
        assert_eq!(report, [8, 0, 0, 0, 0, 0, 0, 0]);
        assert_eq!(target, [0x55; 8]);
    }
}
