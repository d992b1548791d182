//! Colors and rows, against rules of a few lines that share nothing with the library.

mod expansion;
mod palettes;
#[path = "../common/random.rs"]
mod random;
mod rows;
mod same;

/// Depths with their bytes per pixel.
const DEPTHS: [(usize, usize); 4] = [(8, 1), (15, 2), (16, 2), (24, 3)];
