//! Times walks over the orders of a stream beside its decoding: order_record of a number that no
//! order has, and the iterator over all records. Only the ratios within one run mean something:
//! above 1, the walk is faster than decoding.
//!
//! Argument: the number of rounds; the best one counts. `bench/run orders` builds and calls it.

mod common;
// Other programs use more of it.
#[allow(dead_code)]
mod pictures;

use common::{fastest, rounds, DEPTHS};
use nulambiro::{decompress_into, order_record, order_records};
use pictures::{short_order, stream_of, Order, Writer};
use std::hint::black_box;

const SIDE: usize = 2048;
const WHOLE: usize = 8192;

const LOADS: [(&str, Order); 2] = [
    ("short mixed orders", short_order),
    ("white and black pixels", one_pixel),
];

fn one_pixel(writer: &mut Writer, _: usize, _: usize) -> usize {
    let header = writer.random.pick(&[0xFD, 0xFE]);
    writer.stream.push(header);
    1
}

/// Prints the nanoseconds of an order, decoded, walked and by the iterator, and both ratios.
fn show(what: &str, bpp: usize, orders: usize, times: [f64; 3]) {
    let [decoded, walked, iterated] = times.map(|seconds| seconds / orders as f64 * 1e9);
    println!(
        "{bpp:>2} bpp, {what:22} {orders:>8} orders: {decoded:>7.1} ns decoded, {walked:>5.1} \
         walked, {iterated:>5.1} by the iterator; ratios {:>5.2} {:>5.2}",
        decoded / walked,
        decoded / iterated
    );
}

/// Times one stream of a square picture.
fn time(what: &str, stream: &[u8], side: usize, (bpp, pixel): (usize, usize), rounds: usize) {
    let mut target = vec![0; side * side * pixel];
    let report = decompress_into(stream, &mut target, side, side, bpp);
    assert!(report.outcome.is_ok());
    let times = fastest(
        rounds,
        [
            &mut || {
                let again = decompress_into(black_box(stream), &mut target, side, side, bpp);
                assert_eq!(again.orders, report.orders);
            },
            &mut || {
                assert!(order_record(black_box(stream), side, side, bpp, usize::MAX).is_none());
            },
            &mut || {
                let records = order_records(black_box(stream), side, side, bpp);
                assert_eq!(records.map(black_box).count(), report.orders);
            },
        ],
    );
    show(what, bpp, report.orders, times);
}

/// As many foreground runs as the largest picture has rows, of so many pixels each.
fn runs_of(pixels: usize) -> Vec<u8> {
    let [low, high] = (pixels as u16).to_le_bytes();
    [0xF1, low, high].repeat(WHOLE)
}

fn main() {
    let rounds = rounds();
    println!("streams of a picture of {SIDE} x {SIDE}; best of {rounds} rounds");
    for depth in DEPTHS {
        for (name, order) in LOADS {
            time(
                name,
                &stream_of(order, SIDE, depth.1, 1),
                SIDE,
                depth,
                rounds,
            );
        }
    }
    println!("{WHOLE} foreground runs in a picture of {WHOLE} x {WHOLE}");
    for pixels in [1, 8, 64, 512, WHOLE] {
        let what = format!("{pixels} pixels each");
        time(&what, &runs_of(pixels), WHOLE, DEPTHS[0], rounds);
    }
}
