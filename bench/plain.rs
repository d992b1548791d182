//! The plain decoder, `libplain_library.a`, for the timed programs.

extern "C" {
    fn nulambiro_plain_decompress(
        src: *const u8,
        src_len: usize,
        dst: *mut u8,
        dst_len: usize,
        width: usize,
        height: usize,
        bpp: usize,
    ) -> usize;
}

/// Decodes `src` into the first bytes of `dst`; returns how many pixels were painted.
pub fn decompress(src: &[u8], dst: &mut [u8], width: usize, height: usize, bpp: usize) -> usize {
    let (from, to) = (src.as_ptr(), dst.as_mut_ptr());
    // SAFETY: both slices are valid for their lengths, and the borrows keep them from overlapping.
    // The library asks nothing of the other numbers.
    unsafe { nulambiro_plain_decompress(from, src.len(), to, dst.len(), width, height, bpp) }
}
