//! Decoding that stops after some orders: beside decoding in one call, and from states of which
//! every number is known.

#[path = "../common/random.rs"]
mod random;
mod refusals;
mod states;
mod stops;

use nulambiro::{Decoder, Progress, ResumeError, RlePixelFormat, State};

/// What every byte of a target is before decoding.
const OLD: u8 = 0x55;

const ENDED: Result<Progress, ResumeError> = Ok(Progress::Ended(RlePixelFormat::Rgb8));
const PAUSED: Result<Progress, ResumeError> = Ok(Progress::Paused);

/// A decoder at the start of a tile of 4 x 2 pixels at 8 bits per pixel.
fn tile() -> Decoder {
    Decoder::new(4, 2, 8).expect("a good size")
}

/// A decoder of such a tile that goes on from this state.
fn tile_from(state: State) -> Decoder {
    Decoder::resume(4, 2, 8, state).expect("a good size")
}

/// What a decoder counts: orders, and pixels.
fn counts(decoder: &Decoder) -> (usize, usize) {
    (decoder.orders(), decoder.pixels())
}
