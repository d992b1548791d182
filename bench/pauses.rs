//! Times decoding that pauses every few orders beside decoding in one call, on the same streams.
//! Only the ratios within one run mean something: how many times the time of one call the calls
//! with pauses take.
//!
//! Argument: the number of rounds; the best one counts. `bench/run pauses` builds and calls it.

mod common;
// Other programs use more of it.
#[allow(dead_code)]
mod pictures;
#[path = "../differential/encoder/pictures.rs"]
mod plans;

use common::{fastest, random, rounds, Random, DEPTHS};
use nulambiro::{compress, decompress_into, Decoder, Progress};
use pictures::{fgbg_image, run, short_order, stream_of, Order, Writer, BACKGROUND, FOREGROUND};
use std::cell::RefCell;
use std::hint::black_box;

const SIDE: usize = 2048;

/// Orders from one pause to the next.
const LIMITS: [usize; 4] = [1, 4, 16, 64];

const LOADS: [(&str, Order); 3] = [
    ("short mixed orders", short_order),
    ("white and black pixels", one_pixel),
    ("orders of up to 255 pixels", longer_order),
];

fn one_pixel(writer: &mut Writer, _: usize, _: usize) -> usize {
    let header = writer.random.pick(&[0xFD, 0xFE]);
    writer.stream.push(header);
    1
}

fn longer_order(writer: &mut Writer, number: usize, left: usize) -> usize {
    let most = writer.random.range(1, 255).min(left);
    match writer.random.below(3) {
        0 => run(writer, BACKGROUND, most),
        1 => run(writer, FOREGROUND, most),
        _ => fgbg_image(writer, number, most),
    }
}

/// The stream of a floor plan.
fn plan_stream(bpp: usize, bytes_per_pixel: usize) -> Vec<u8> {
    let shape = plans::Shape {
        width: SIDE,
        height: SIDE,
        bytes_per_pixel,
    };
    let plan = plans::plan(&mut Random::new(1), shape);
    compress(&plan, SIDE, SIDE, bpp).expect("a good picture")
}

/// A whole square picture.
struct Load {
    stream: Vec<u8>,
    side: usize,
    bpp: usize,
}

impl Load {
    fn at_once(&self, target: &mut [u8]) -> usize {
        let stream = black_box(&self.stream);
        let report = decompress_into(stream, target, self.side, self.side, self.bpp);
        assert!(report.outcome.is_ok() && report.pixels == self.side * self.side);
        report.orders
    }

    fn by_pauses(&self, limit: usize, target: &mut [u8]) {
        let stream = black_box(&self.stream);
        let mut decoder = Decoder::new(self.side, self.side, self.bpp).expect("a good size");
        while decoder.decode_some(stream, target, limit) == Ok(Progress::Paused) {}
        assert_eq!(decoder.pixels(), self.side * self.side);
    }

    /// The same bytes come with pauses.
    fn compare(&self, target: &mut [u8]) {
        self.at_once(target);
        for limit in LIMITS {
            let mut paused = vec![0; target.len()];
            self.by_pauses(limit, &mut paused);
            assert!(paused == target, "the pictures differ");
        }
    }

    /// Seconds of one call, and of calls of each limit, all into one target.
    fn time(&self, target: &mut [u8], rounds: usize) -> [f64; 5] {
        let target = RefCell::new(target);
        let paused = |limit| self.by_pauses(limit, &mut target.borrow_mut());
        fastest(
            rounds,
            [
                &mut || {
                    self.at_once(&mut target.borrow_mut());
                },
                &mut || paused(LIMITS[0]),
                &mut || paused(LIMITS[1]),
                &mut || paused(LIMITS[2]),
                &mut || paused(LIMITS[3]),
            ],
        )
    }
}

fn main() {
    let rounds = rounds();
    println!("streams of a picture of {SIDE} x {SIDE}; best of {rounds} rounds");
    println!("times of one call that it takes with a pause every {LIMITS:?} orders");
    for (bpp, pixel) in DEPTHS {
        let orders = LOADS.map(|(name, order)| (name, stream_of(order, SIDE, pixel, 1)));
        let plan = ("floor plan", plan_stream(bpp, pixel));
        for (name, stream) in orders.into_iter().chain([plan]) {
            let load = Load {
                stream,
                side: SIDE,
                bpp,
            };
            let mut target = vec![0; SIDE * SIDE * pixel];
            let orders = load.at_once(&mut target);
            load.compare(&mut target);
            let [once, paused @ ..] = load.time(&mut target, rounds);
            let ratios = paused.map(|seconds| format!("{:>6.2}", seconds / once));
            println!(
                "{bpp:>2} bpp, {name:26} {orders:>8} orders of {:>5.1} ns:{}",
                once / orders as f64 * 1e9,
                ratios.concat()
            );
        }
    }
}
