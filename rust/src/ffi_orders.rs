//! The C interface of the look at a stream's orders, as `include/nulambiro.h` documents it.

extern "C" {
    pub(crate) fn nulambiro_order_record(
        src: *const u8,
        src_len: usize,
        width: usize,
        height: usize,
        bpp: usize,
        n: usize,
        report: *mut [u64; 8],
    );
    pub(crate) fn nulambiro_next_order(
        src: *const u8,
        src_len: usize,
        width: usize,
        height: usize,
        bpp: usize,
        walk: *mut [u64; 8],
        report: *mut [u64; 8],
    );
}

/// Returns the report: whether there is an order n, its header, where its length stands.
pub(crate) fn order_record(
    src: &[u8],
    width: usize,
    height: usize,
    bpp: usize,
    n: usize,
) -> [u64; 8] {
    let mut report = [0; 8];
    // SAFETY: the slice is valid for its length, the report has its eight places, and the borrows
    // keep the two from overlapping. The library asks nothing of the other numbers.
    unsafe {
        nulambiro_order_record(src.as_ptr(), src.len(), width, height, bpp, n, &mut report);
    }
    report
}

/// Moves the walk behind the next order; returns the report, which is that of [`order_record`].
pub(crate) fn next_order(
    src: &[u8],
    width: usize,
    height: usize,
    bpp: usize,
    walk: &mut [u64; 8],
) -> [u64; 8] {
    let mut report = [0; 8];
    // SAFETY: the slice is valid for its length, walk and report have their eight places, and the
    // borrows keep the three from overlapping. The library asks nothing of the numbers.
    unsafe {
        nulambiro_next_order(
            src.as_ptr(),
            src.len(),
            width,
            height,
            bpp,
            walk,
            &mut report,
        );
    }
    report
}

#[cfg(test)]
mod tests {
    use super::{nulambiro_next_order, nulambiro_order_record};
    use std::ptr;

    /// A foreground run of the first row of four pixels, a background run of two pixels whose
    /// length stands in two bytes, and a black pixel.
    const STREAM: [u8; 5] = [0x24, 0xF0, 0x02, 0x00, 0xFE];

    const NO_ORDER: [u64; 8] = [0; 8];

    /// The report of order n in a picture of 4 x 2 pixels.
    fn record(n: usize) -> [u64; 8] {
        let mut report = [u64::MAX; 8];
        // SAFETY: stream and report are valid for their lengths, and apart.
        unsafe { nulambiro_order_record(STREAM.as_ptr(), 5, 4, 2, 8, n, &mut report) };
        report
    }

    /// The walk behind the next order in such a picture, and the report.
    fn next(mut walk: [u64; 8]) -> ([u64; 8], [u64; 8]) {
        let mut report = [u64::MAX; 8];
        // SAFETY: stream, walk and report are valid for their lengths, and apart.
        unsafe { nulambiro_next_order(STREAM.as_ptr(), 5, 4, 2, 8, &mut walk, &mut report) };
        (walk, report)
    }

    #[test]
    fn null_stream_has_no_order() {
        let (mut walk, mut report) = ([0; 8], [u64::MAX; 8]);
        // SAFETY: the stream's length is 0; the report has its eight places.
        unsafe { nulambiro_order_record(ptr::null(), 0, 4, 2, 8, 0, &mut report) };
        assert_eq!(report, NO_ORDER);
        report = [u64::MAX; 8];
        // SAFETY: the stream's length is 0; walk and report have their eight places, and are apart.
        unsafe { nulambiro_next_order(ptr::null(), 0, 4, 2, 8, &mut walk, &mut report) };
        assert_eq!((walk, report), ([0; 8], NO_ORDER));
    }

    #[test]
    fn all_places_of_the_report_are_written() {
        assert_eq!(record(0), [1, 0x24, 1, 0, 0, 0, 0, 0]);
        assert_eq!(record(1), [1, 0xF0, 3, 0, 0, 0, 0, 0]);
        assert_eq!(record(2), [1, 0xFE, 0, 0, 0, 0, 0, 0]);
        assert_eq!(record(3), NO_ORDER);
        assert_eq!(record(usize::MAX), NO_ORDER);
    }

    #[test]
    fn walk_tells_bytes_pixels_insert_and_row() {
        let mut walk = [0; 8];
        for (n, behind) in [
            [1, 4, 0, 0, 0, 0, 0, 0],
            [4, 6, 1, 1, 0, 0, 0, 0],
            [5, 7, 0, 1, 0, 0, 0, 0],
        ]
        .into_iter()
        .enumerate()
        {
            assert_eq!(next(walk), (behind, record(n)));
            walk = behind;
        }
        assert_eq!(next(walk), (walk, NO_ORDER));
    }

    #[test]
    fn walk_past_the_stream_or_the_picture_stays() {
        for bytes in [5, 6, 1 << 32, u64::MAX - 1, u64::MAX] {
            let walk = [bytes, 0, 0, 0, 0, 0, 0, 0];
            assert_eq!(next(walk), (walk, NO_ORDER));
        }
        // The run of four pixels does not fit either where fewer are left.
        for pixels in [5, 8, 9, 1 << 32, u64::MAX - 1, u64::MAX] {
            let walk = [0, pixels, 0, 0, 0, 0, 0, 0];
            assert_eq!(next(walk), (walk, NO_ORDER));
        }
        let walk = [u64::MAX; 8];
        assert_eq!(next(walk), (walk, NO_ORDER));
    }

    #[test]
    fn numbers_that_no_stream_leads_to_are_taken() {
        // Two pixels are painted, so the run begins in the first row, unless that has ended.
        for (later_row, behind) in [(0, 0), (1, 1), (2, 1), (1 << 32, 1), (u64::MAX, 1)] {
            for insert in [0, 1, u64::MAX] {
                let walk = [0, 2, insert, later_row, 7, u64::MAX, 1, 9];
                let found = ([1, 6, 0, behind, 0, 0, 0, 0], record(0));
                assert_eq!(next(walk), found);
            }
        }
        // The stream from its third byte on: a background run of two pixels.
        let walk = [2, 0, 0, 0, 0, 0, 0, 0];
        let behind = [3, 2, 1, 0, 0, 0, 0, 0];
        assert_eq!(next(walk), (behind, [1, 0x02, 1, 0, 0, 0, 0, 0]));
    }

    #[test]
    fn walk_that_stays_keeps_every_place() {
        // At the end of the stream.
        let walk = [5, 3, 2, u64::MAX, 4, 5, 6, u64::MAX];
        assert_eq!(next(walk), (walk, NO_ORDER));
    }
}
