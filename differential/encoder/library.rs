//! The library's encoder, by its C interface.

use crate::case::Picture;
use crate::ffi_encoder::nulambiro_compress;
use crate::subject::Subject;

/// All places of the encoder's report.
pub type Report = [u64; 8];

/// The report of a stream of this length.
pub fn written(length: usize) -> Report {
    [0, 0, 0, 0, length as u64, 0, 0, 0]
}

/// The report of a refusal.
pub fn refused(refusal: u64, first: usize, second: usize) -> Report {
    [0, refusal, first as u64, second as u64, 0, 0, 0, 0]
}

pub fn encode(subject: Subject, output: &mut [u8]) -> Report {
    // SAFETY: a slice is valid for its length.
    unsafe { call(subject, output.as_mut_ptr(), output.len()) }
}

/// Encodes into a heap block of exactly `len` bytes, none of them initialized; returns the report
/// and the stream.
pub fn encode_in_new_block(subject: Subject, len: usize) -> (Report, Vec<u8>) {
    let mut output = Vec::<u8>::with_capacity(len);
    // SAFETY: the vector has this capacity.
    let report = unsafe { call(subject, output.as_mut_ptr(), len) };
    let length = report[4] as usize;
    assert!(length <= len, "{length} bytes in an output of {len}");
    // SAFETY: the library has written the stream.
    unsafe { output.set_len(length) };
    (report, output)
}

/// # Safety
///
/// `output` must be valid for writes of `len` bytes; they need not be initialized.
unsafe fn call(subject: Subject, output: *mut u8, len: usize) -> Report {
    let Picture { width, height, bpp } = subject.picture;
    let (src, src_len) = (subject.pixels.as_ptr(), subject.pixels.len());
    // On the heap and not initialized: valgrind sees a write past it, and a place not written.
    let mut report = Box::<Report>::new_uninit();
    let places = report.as_mut_ptr();
    // SAFETY: the pixels are a slice, the caller vouches for the output, the report has its eight
    // places, and the three are apart. The library writes all places.
    unsafe {
        nulambiro_compress(src, src_len, output, len, width, height, bpp, places);
        *report.assume_init()
    }
}
