//! The library, by its C interface and by the package's module `rle`.

use crate::answer::{answer, Answer};
use crate::case::{Case, Picture};
use crate::ffi::nulambiro_decompress;
use crate::ffi_orders::{nulambiro_next_order, nulambiro_order_record};
use crate::ffi_pauses::{self, nulambiro_decompress_some};
use crate::pauses::State;
use crate::records::{Record, Walk};

/// The library's whole report.
#[derive(Clone, Copy, Debug, PartialEq, Eq)]
pub struct Report {
    pub answer: Answer,
    pub pixels: u64,
    pub orders: u64,
    pub unused: [u64; 2],
}

impl From<[u64; 8]> for Report {
    fn from(places: [u64; 8]) -> Self {
        let [format, refusal, first, second, pixels, orders, unused @ ..] = places;
        Self {
            answer: Answer {
                format,
                refusal,
                first,
                second,
            },
            pixels,
            orders,
            unused,
        }
    }
}

pub fn decode(case: Case, target: &mut [u8]) -> Report {
    // SAFETY: a slice is valid for its length.
    unsafe { call(case, target.as_mut_ptr(), target.len()) }
}

/// Decodes into a heap block of exactly `len` bytes, none of them initialized; returns the report
/// and the painted bytes.
pub fn decode_in_new_block(case: Case, len: usize) -> (Report, Vec<u8>) {
    let mut target = Vec::<u8>::with_capacity(len);
    // SAFETY: the vector has this capacity.
    let report = unsafe { call(case, target.as_mut_ptr(), len) };
    let painted = report.pixels as usize * case.picture.bytes_per_pixel().unwrap_or(0);
    assert!(
        painted <= len,
        "{painted} bytes painted in a target of {len}"
    );
    // SAFETY: the library has written the painted bytes.
    unsafe { target.set_len(painted) };
    (report, target)
}

/// # Safety
///
/// `target` must be valid for writes of `len` bytes; they need not be initialized.
unsafe fn call(case: Case, target: *mut u8, len: usize) -> Report {
    let Picture { width, height, bpp } = case.picture;
    let (src, src_len) = (case.stream.as_ptr(), case.stream.len());
    // On the heap and not initialized: valgrind sees a write past it, and a place not written.
    let mut report = Box::<[u64; 8]>::new_uninit();
    let places = report.as_mut_ptr();
    // SAFETY: the stream is a slice, the caller vouches for the target, the report has its eight
    // places, and the three are apart. The library writes all places.
    unsafe {
        nulambiro_decompress(src, src_len, target, len, width, height, bpp, places);
        Report::from(*report.assume_init())
    }
}

/// The state at the start of a stream.
pub fn start(bpp: usize) -> State {
    ffi_pauses::start(bpp)
}

/// Decodes at most so many orders from a state on, which is moved on where decoding pauses.
pub fn decode_some(case: Case, target: &mut [u8], limit: usize, state: &mut State) -> Report {
    let Picture { width, height, bpp } = case.picture;
    let (src, src_len) = (case.stream.as_ptr(), case.stream.len());
    let (dst, len) = (target.as_mut_ptr(), target.len());
    // On the heap, and the report not initialized, as in `call`.
    let mut next = Box::new(*state);
    let mut report = Box::<[u64; 8]>::new_uninit();
    let places = report.as_mut_ptr();
    // SAFETY: stream and target are slices, state and report have their eight places, and the four
    // are apart. The library writes all places of the report.
    let report = unsafe {
        nulambiro_decompress_some(
            src, src_len, dst, len, width, height, bpp, limit, &mut *next, places,
        );
        Report::from(*report.assume_init())
    };
    *state = *next;
    report
}

/// The next order's record, and the walk behind it.
pub fn next_order(case: Case, walk: Walk) -> (Record, Walk) {
    let Picture { width, height, bpp } = case.picture;
    let (src, src_len) = (case.stream.as_ptr(), case.stream.len());
    // On the heap, and the record not initialized, as in `call`.
    let mut walk = Box::new(walk);
    let mut record = Box::<Record>::new_uninit();
    let places = record.as_mut_ptr();
    // SAFETY: the stream is a slice, walk and record have their eight places, and the three are
    // apart. The library writes all places of the record.
    unsafe {
        nulambiro_next_order(src, src_len, width, height, bpp, &mut *walk, places);
        (*record.assume_init(), *walk)
    }
}

/// The record of order n.
pub fn order_record(case: Case, n: usize) -> Record {
    let Picture { width, height, bpp } = case.picture;
    let (src, src_len) = (case.stream.as_ptr(), case.stream.len());
    let mut record = Box::<Record>::new_uninit();
    let places = record.as_mut_ptr();
    // SAFETY: the stream is a slice, the record has its eight places, and the two are apart. The
    // library writes all places.
    unsafe {
        nulambiro_order_record(src, src_len, width, height, bpp, n, places);
        *record.assume_init()
    }
}

/// The package's module with the interface of `rle.rs`.
pub fn decode_by_package(case: Case, target: &mut Vec<u8>) -> Answer {
    let Picture { width, height, bpp } = case.picture;
    let result = nulambiro::rle::decompress(case.stream, target, width, height, bpp);
    answer!(nulambiro::rle, result)
}
