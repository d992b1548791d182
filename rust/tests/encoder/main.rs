//! The encoder: which stream a picture gets, what is refused, and what stays in the output. The
//! streams are stored here or put together order by order: these tests need no other encoder.

mod bound;
mod outputs;
#[path = "../common/random.rs"]
mod random;
mod refusals;
mod round_trip;
mod rule;

use nulambiro::compress;

/// Depths with their bytes per pixel.
const DEPTHS: [(usize, usize); 4] = [(8, 1), (15, 2), (16, 2), (24, 3)];

/// What every byte of an output is before encoding.
const OLD: u8 = 0x55;

/// A picture of 8 bits per pixel has this stream.
fn assert_stream(pixels: &[u8], width: usize, stream: &[u8]) {
    let height = pixels.len() / width;
    let found = compress(pixels, width, height, 8).expect("a good picture");
    assert_eq!(found, stream, "{width} x {height}");
}

/// Pixels of 8 bits that differ from their neighbors, and from those above in rows of any width up
/// to 8,192 that 251 does not divide.
fn counting(count: usize) -> Vec<u8> {
    (0..count).map(|k| (k % 251) as u8).collect()
}

/// Pixels of `size` bytes that differ from their neighbors, and from those above in rows of any
/// width that 251 does not divide.
fn counting_wide(count: usize, size: usize) -> Vec<u8> {
    let pixel = |k: usize| [(k % 251) as u8, 7, (k % 2) as u8];
    (0..count)
        .flat_map(|k| pixel(k).into_iter().take(size))
        .collect()
}
