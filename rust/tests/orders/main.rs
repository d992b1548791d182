//! How the orders of a stream were written. The places are those of a table from the specification
//! (`headers`), and the decoder says how many orders there are.

mod headers;
mod numbers;
#[path = "../common/random.rs"]
mod random;
mod refusals;
mod walks;

use nulambiro::{decompress_into, order_record, order_records, picture_len, LengthPlace};

/// Depths with their bytes per pixel.
const DEPTHS: [(usize, usize); 4] = [(8, 1), (15, 2), (16, 2), (24, 3)];

/// Pixels in a row, rows, and bits per pixel.
type Sizes = (usize, usize, usize);

/// Header and place of order n.
fn record(stream: &[u8], (width, height, bpp): Sizes, n: usize) -> Option<(u8, LengthPlace)> {
    order_record(stream, width, height, bpp, n).map(|record| (record.header, record.place))
}

/// Headers and places of all orders.
fn records(stream: &[u8], (width, height, bpp): Sizes) -> Vec<(u8, LengthPlace)> {
    order_records(stream, width, height, bpp)
        .map(|record| (record.header, record.place))
        .collect()
}

/// How many orders decoding into a target with space completes.
fn completed(stream: &[u8], (width, height, bpp): Sizes) -> usize {
    let mut target = vec![0; picture_len(width, height, bpp).expect("a good size")];
    decompress_into(stream, &mut target, width, height, bpp).orders
}

/// The stream completes just these orders, each found by its number and by the walk.
fn assert_records(stream: &[u8], sizes: Sizes, expected: &[(u8, LengthPlace)]) {
    assert_eq!(completed(stream, sizes), expected.len(), "{stream:02x?}");
    assert_eq!(records(stream, sizes), expected, "{stream:02x?}");
    for n in 0..expected.len() + 2 {
        let found = record(stream, sizes, n);
        assert_eq!(found, expected.get(n).copied(), "{stream:02x?}, order {n}");
    }
}
