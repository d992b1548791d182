//! Times a picture of the largest size and one with a quarter of its pixels, at each depth, and
//! prints how the time per pixel grows from the one to the other, and how the library's time
//! compares with that of `rle.rs`.
//!
//! Argument: the number of rounds; the best one counts. `bench/run growth` builds and calls it.

mod common;
mod pictures;

use common::{fastest, rounds, DEPTHS};
use pictures::{
    color_image, fgbg_image, run, short_order, stream_of, Order, Writer, BACKGROUND, COLOR,
    DITHERED, FOREGROUND, SET_FOREGROUND,
};
use std::hint::black_box;

const WHOLE: usize = 8192;
const QUARTER: usize = WHOLE / 2;

const LOADS: [(&str, Order); 4] = [
    ("long runs", long_run),
    ("fg/bg images", fgbg_image),
    ("color images", color_image),
    ("short orders", short_order),
];

/// Background, foreground, color, set-foreground and dithered runs.
fn long_run(writer: &mut Writer, number: usize, left: usize) -> usize {
    let runs = [BACKGROUND, FOREGROUND, COLOR, SET_FOREGROUND, DITHERED];
    run(writer, runs[number % 5], left)
}

/// Seconds per pixel, the best of the rounds.
struct Times {
    library: f64,
    rust: f64,
}

fn time(order: Order, side: usize, (bpp, pixel): (usize, usize), rounds: usize) -> Times {
    let pixels = side * side;
    let stream = stream_of(order, side, pixel, 1);
    let (mut ours, mut theirs) = (vec![0; pixels * pixel], vec![0; pixels * pixel]);
    let [library, rust] = fastest(
        rounds,
        [
            &mut || {
                let report =
                    nulambiro::decompress_into(black_box(&stream), &mut ours, side, side, bpp);
                assert!(report.outcome.is_ok() && report.pixels == pixels);
            },
            &mut || {
                let result = rle::decompress(black_box(&stream), &mut theirs, side, side, bpp);
                assert!(result.is_ok());
            },
        ],
    );
    assert!(ours == theirs, "the pictures differ");
    Times {
        library: library / pixels as f64,
        rust: rust / pixels as f64,
    }
}

fn main() {
    let rounds = rounds();
    println!(
        "growth: time per pixel at {WHOLE} x {WHOLE}, divided by that at {QUARTER} x {QUARTER}"
    );
    println!("speed: time of rle.rs, divided by the library's; best of {rounds} rounds");
    println!(
        "{:>3} {:13} {:>14} {:>12} {:>14} {:>12}",
        "bpp", "stream", "growth library", "growth rust", "speed quarter", "speed whole"
    );
    for depth in DEPTHS {
        for (name, order) in LOADS {
            let quarter = time(order, QUARTER, depth, rounds);
            let whole = time(order, WHOLE, depth, rounds);
            println!(
                "{:>3} {name:13} {:>14.2} {:>12.2} {:>14.2} {:>12.2}",
                depth.0,
                whole.library / quarter.library,
                whole.rust / quarter.rust,
                quarter.rust / quarter.library,
                whole.rust / whole.library
            );
        }
    }
}
