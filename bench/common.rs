//! What the timed programs share.

#[path = "../rust/tests/common/random.rs"]
pub mod random;

pub use random::Random;
use std::env;
use std::process::exit;
use std::time::Instant;

/// Depths with their bytes per pixel.
pub const DEPTHS: [(usize, usize); 4] = [(8, 1), (15, 2), (16, 2), (24, 3)];

/// How often each call is timed: the first argument.
pub fn rounds() -> usize {
    let word = env::args().nth(1).unwrap_or_default();
    match word.parse() {
        Ok(rounds) if rounds > 0 => rounds,
        _ => {
            eprintln!("{word:?} is no number of rounds");
            exit(2);
        }
    }
}

/// Seconds of one call.
fn seconds(call: impl FnOnce()) -> f64 {
    let start = Instant::now();
    call();
    start.elapsed().as_secs_f64()
}

/// Seconds of each call in its fastest round. They take turns, so that all see the machine in the
/// same state.
pub fn fastest<const N: usize>(rounds: usize, mut calls: [&mut dyn FnMut(); N]) -> [f64; N] {
    let mut best = [f64::MAX; N];
    for _ in 0..rounds {
        for (best, call) in best.iter_mut().zip(&mut calls) {
            *best = best.min(seconds(call));
        }
    }
    best
}
