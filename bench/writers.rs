//! Times the run writers beside the plain loop and `rle.rs`, on pictures of the largest size and on
//! tiles, and prints a table. Only the ratios within one run mean something: above 1, the run
//! writers are faster.
//!
//! Argument: the number of rounds; the best one counts. `bench/run writers` builds and calls it.

mod common;
mod pictures;

use common::{fastest, rounds, DEPTHS};
use pictures::{
    color_image, fgbg_image, run, short_order, stream_of, Order, Writer, BACKGROUND, COLOR,
    DITHERED, FOREGROUND, SET_FOREGROUND,
};
use std::cell::RefCell;
use std::hint::black_box;
use std::iter::zip;

const WHOLE: usize = 8192;
const TILE: usize = 64;

const KINDS: [(&str, Order); 9] = [
    ("background runs", |to, _, left| run(to, BACKGROUND, left)),
    ("foreground runs", |to, _, left| run(to, FOREGROUND, left)),
    ("color runs", |to, _, left| run(to, COLOR, left)),
    ("set-foreground runs", |to, _, left| {
        run(to, SET_FOREGROUND, left)
    }),
    ("fg/bg images", fgbg_image),
    ("color images", color_image),
    ("dithered runs", |to, _, left| run(to, DITHERED, left)),
    ("short mixed orders", short_order),
    ("white and black pixels", one_pixel),
];

fn one_pixel(writer: &mut Writer, _: usize, _: usize) -> usize {
    let header = writer.random.pick(&[0xFD, 0xFE]);
    writer.stream.push(header);
    1
}

/// Orders of all kinds, of up to 255 pixels, short ones more often.
fn mixed_order(writer: &mut Writer, number: usize, left: usize) -> usize {
    let (_, order) = writer.random.pick(&KINDS);
    let longest = writer.random.range(1, 255);
    let most = writer.random.range(1, longest);
    order(writer, number, left.min(most))
}

/// Decodes a whole square picture of so many pixels on a side.
type Decoder = fn(stream: &[u8], target: &mut Vec<u8>, side: usize, bpp: usize);

const DECODERS: [Decoder; 3] = [by_plain_loop, by_run_writers, by_rle_rs];

fn by_plain_loop(stream: &[u8], target: &mut Vec<u8>, side: usize, bpp: usize) {
    let pixels = plain::decompress(stream, target, side, side, bpp);
    assert_eq!(pixels, side * side);
}

fn by_run_writers(stream: &[u8], target: &mut Vec<u8>, side: usize, bpp: usize) {
    let report = nulambiro::decompress_into(stream, target, side, side, bpp);
    assert!(report.outcome.is_ok() && report.pixels == side * side);
}

fn by_rle_rs(stream: &[u8], target: &mut Vec<u8>, side: usize, bpp: usize) {
    assert!(rle::decompress(stream, target, side, side, bpp).is_ok());
}

/// Pictures of one size and depth that are timed together.
struct Load {
    streams: Vec<Vec<u8>>,
    side: usize,
    bpp: usize,
}

impl Load {
    /// As many pictures as have the pixels of one of the largest size.
    fn new(order: Order, side: usize, (bpp, pixel): (usize, usize)) -> Self {
        let count = (WHOLE / side).pow(2);
        let seeds = 1..=count as u64;
        Self {
            streams: seeds.map(|s| stream_of(order, side, pixel, s)).collect(),
            side,
            bpp,
        }
    }

    fn compare(&self, targets: &mut [Vec<u8>; 3]) {
        for stream in &self.streams {
            for (decode, target) in zip(DECODERS, &mut *targets) {
                decode(stream, target, self.side, self.bpp);
            }
            let [plain, writers, rust] = &*targets;
            assert!(plain == writers && writers == rust, "the pictures differ");
        }
    }

    fn decode(&self, decode: Decoder, target: &mut Vec<u8>) {
        for stream in &self.streams {
            decode(black_box(stream), target, self.side, self.bpp);
        }
    }

    /// Seconds of each decoder, the best of the rounds. All decode into one target: where it lies in memory
    /// makes up to a fifth of the time of a picture that comes from there.
    fn time(&self, target: &mut Vec<u8>, rounds: usize) -> [f64; 3] {
        let target = RefCell::new(target);
        let time = |decode: Decoder| self.decode(decode, &mut target.borrow_mut());
        fastest(
            rounds,
            [
                &mut || time(by_plain_loop),
                &mut || time(by_run_writers),
                &mut || time(by_rle_rs),
            ],
        )
    }
}

/// A row of the table.
fn row(name: &str, bpp: usize, [plain, writers, rust]: [f64; 3]) -> String {
    format!(
        "| {name} | {bpp} | {:.1} | {:.1} | {:.2} | {:.2} |\n",
        1e3 * plain,
        1e3 * writers,
        plain / writers,
        rust / writers
    )
}

fn main() {
    let rounds = rounds();
    let whole = KINDS.map(|(name, order)| (name, order, WHOLE));
    let tiles: (_, Order, _) = ("tiles of 64 × 64, mixed orders", mixed_order, TILE);
    let mut targets = [(); 3].map(|()| Vec::with_capacity(3 * WHOLE * WHOLE));
    let mut table = String::new();
    for (name, order, side) in whole.into_iter().chain([tiles]) {
        // 15 bits per pixel are painted as 16 are.
        for (bpp, pixel) in DEPTHS.into_iter().filter(|depth| depth.0 != 15) {
            eprintln!("{name}, {bpp} bpp");
            for target in &mut targets {
                target.resize(side * side * pixel, 0);
            }
            let load = Load::new(order, side, (bpp, pixel));
            load.compare(&mut targets);
            table += &row(name, bpp, load.time(&mut targets[0], rounds));
        }
    }
    println!(
        "| picture | bpp | plain loop, ms | run writers, ms | run writers to plain loop \
         | run writers to `rle.rs` |"
    );
    print!("|---|---|---|---|---|---|\n{table}");
}
