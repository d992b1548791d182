//! The C interface of decoding that pauses, as `include/nulambiro.h` documents it.

extern "C" {
    fn nulambiro_start(bpp: usize, state: *mut [u64; 8]);
    pub(crate) fn nulambiro_decompress_some(
        src: *const u8,
        src_len: usize,
        dst: *mut u8,
        dst_len: usize,
        width: usize,
        height: usize,
        bpp: usize,
        limit: usize,
        state: *mut [u64; 8],
        report: *mut [u64; 8],
    );
}

/// Returns the state at the start: bytes, pixels, foreground, insert, first row, orders.
pub(crate) fn start(bpp: usize) -> [u64; 8] {
    let mut state = [0; 8];
    // SAFETY: the state has its eight places. The library asks nothing of the number.
    unsafe { nulambiro_start(bpp, &mut state) };
    state
}

/// Moves the state on where decoding pauses; returns the report: format, refusal, first, second,
/// pixels, orders.
pub(crate) fn decompress_some(
    src: &[u8],
    dst: &mut [u8],
    width: usize,
    height: usize,
    bpp: usize,
    limit: usize,
    state: &mut [u64; 8],
) -> [u64; 8] {
    let mut report = [0; 8];
    // SAFETY: both slices are valid for their lengths, state and report have their eight places,
    // and the borrows keep the four from overlapping. The library asks nothing of the numbers.
    unsafe {
        nulambiro_decompress_some(
            src.as_ptr(),
            src.len(),
            dst.as_mut_ptr(),
            dst.len(),
            width,
            height,
            bpp,
            limit,
            state,
            &mut report,
        );
    }
    report
}

#[cfg(test)]
mod tests {
    use super::{nulambiro_decompress_some, nulambiro_start};
    use std::ptr;

    /// A foreground run of the first row of four pixels, and two background runs of one pixel.
    const STREAM: [u8; 3] = [0x24, 0x01, 0x01];

    const BAD_STATE: [u64; 8] = [0, 15, 0, 0, 0, 0, 0, 0];

    fn start(bpp: usize) -> [u64; 8] {
        let mut state = [u64::MAX; 8];
        // SAFETY: the state has its eight places.
        unsafe { nulambiro_start(bpp, &mut state) };
        state
    }

    /// Report, state and target behind so many orders of [`STREAM`] in a picture of 4 x 2 pixels.
    fn some(mut state: [u64; 8], limit: usize, bpp: usize) -> ([u64; 8], [u64; 8], [u8; 8]) {
        let (mut target, mut report) = ([0x55; 8], [u64::MAX; 8]);
        let (src, dst) = (STREAM.as_ptr(), target.as_mut_ptr());
        // SAFETY: stream, target, state and report are valid for their lengths, and apart.
        unsafe {
            nulambiro_decompress_some(src, 3, dst, 8, 4, 2, bpp, limit, &mut state, &mut report);
        }
        (report, state, target)
    }

    /// These numbers are answered so, and stay, as the target does.
    fn assert_refused(state: [u64; 8], bpp: usize, report: [u64; 8]) {
        for limit in [0, 1, usize::MAX] {
            assert_eq!(some(state, limit, bpp), (report, state, [0x55; 8]));
        }
    }

    #[test]
    fn start_has_the_white_of_the_depth() {
        for (bpp, white) in [
            (8, 0xFF),
            (15, 0x7FFF),
            (16, 0xFFFF),
            (24, 0xFF_FFFF),
            (0, 0),
            (9, 0),
            (usize::MAX, 0),
        ] {
            assert_eq!(start(bpp), [0, 0, white, 0, 1, 0, 0, 0]);
        }
    }

    #[test]
    fn null_pointers_are_allowed_with_length_zero() {
        let (mut state, mut report) = (start(8), [u64::MAX; 8]);
        // SAFETY: null pointers are allowed with a length of 0; state and report have their eight
        // places, and are apart.
        unsafe {
            let dst = ptr::null_mut();
            nulambiro_decompress_some(ptr::null(), 0, dst, 0, 4, 2, 8, 1, &mut state, &mut report);
        }
        assert_eq!(report, [0, 4, 8, 0, 0, 0, 0, 0]);
        assert_eq!(state, start(8));
    }

    #[test]
    fn all_places_are_written_where_decoding_pauses() {
        let painted = [0xFF, 0xFF, 0xFF, 0xFF, 0x55, 0x55, 0x55, 0x55];
        let behind = [1, 4, 0xFF, 0, 1, 1, 0, 0];
        assert_eq!(
            some(start(8), 1, 8),
            ([0, 0, 0, 0, 4, 1, 0, 0], behind, painted)
        );
        let painted = [0xFF, 0xFF, 0xFF, 0xFF, 0xFF, 0x55, 0x55, 0x55];
        let behind = [2, 5, 0xFF, 1, 0, 2, 0, 0];
        assert_eq!(
            some(start(8), 2, 8),
            ([0, 0, 0, 0, 5, 2, 0, 0], behind, painted)
        );
    }

    #[test]
    fn state_stays_at_the_end_of_the_stream() {
        let painted = [0xFF, 0xFF, 0xFF, 0xFF, 0xFF, 0x00, 0x55, 0x55];
        for limit in [3, 4, usize::MAX] {
            let ended = ([8, 0, 0, 0, 6, 3, 0, 0], start(8), painted);
            assert_eq!(some(start(8), limit, 8), ended);
        }
    }

    #[test]
    fn numbers_that_no_state_has_are_refused() {
        let good = [0, 4, 0xFF, 0, 1, 1, 0, 0];
        assert_eq!(
            some(good, 0, 8),
            ([0, 0, 0, 0, 4, 1, 0, 0], good, [0x55; 8])
        );
        // Some of these are good if their high bits are lost.
        let many = [2, 3, 256, 1 << 32, (1 << 32) + 1, u64::MAX];
        for (place, numbers) in [
            (
                2,
                &[1 << 24, (1 << 24) + 0xFF, 1 << 32, 1 << 40, u64::MAX][..],
            ),
            (3, &many),
            (4, &many),
            (6, &[1, 256, 1 << 32, u64::MAX]),
            (7, &[1, 256, 1 << 32, u64::MAX]),
        ] {
            for number in numbers {
                let mut state = good;
                state[place] = *number;
                assert_refused(state, 8, BAD_STATE);
            }
        }
        assert_refused([u64::MAX; 8], 8, BAD_STATE);
    }

    #[test]
    fn every_foreground_of_three_bytes_is_one() {
        let mut state = start(24);
        for foreground in [0, 1, 0x12_3456, 0xFF_FFFF] {
            state[2] = foreground;
            let (mut target, mut report) = ([0x55; 24], [u64::MAX; 8]);
            let dst = target.as_mut_ptr();
            // SAFETY: stream, target, state and report are valid for their lengths, and apart.
            unsafe {
                let src = STREAM.as_ptr();
                nulambiro_decompress_some(src, 3, dst, 24, 4, 2, 24, 1, &mut state, &mut report);
            }
            assert_eq!(report, [0, 0, 0, 0, 4, 1, 0, 0]);
            assert_eq!(target[..3], foreground.to_le_bytes()[..3]);
            assert_eq!(state, [1, 4, foreground, 0, 1, 1, 0, 0]);
            state = start(24);
        }
    }

    #[test]
    fn depth_is_refused_before_the_state() {
        for state in [start(9), [u64::MAX; 8], [4, 0, 0, 2, 0, 0, 1, 1]] {
            assert_refused(state, 9, [0, 1, 9, 0, 0, 0, 0, 0]);
            // Eight bytes are too few for two rows of four pixels.
            assert_refused(state, 16, [0, 4, 16, 8, 0, 0, 0, 0]);
        }
    }
}
