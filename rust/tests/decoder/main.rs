//! The decoder over targets of which every byte is known. The answers are stored here: these tests
//! need no other decoder.

mod refusals;
mod rle_module;
mod runs;
mod targets;
mod tiles;

use nulambiro::{decompress_into, picture_len, Report};

/// What every byte of a target is before decoding.
const OLD: u8 = 0x55;

/// Decodes into a target of the picture's length; returns the report and the target.
fn decode(stream: &[u8], width: usize, height: usize, bpp: usize) -> (Report, Vec<u8>) {
    let mut target = vec![OLD; picture_len(width, height, bpp).expect("a good size")];
    let report = decompress_into(stream, &mut target, width, height, bpp);
    (report, target)
}

/// The painted bytes, and after them what was there before.
fn over_old(painted: &[u8], len: usize) -> Vec<u8> {
    let mut target = painted.to_vec();
    target.resize(len, OLD);
    target
}
