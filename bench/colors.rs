//! Times same picture beside `memcmp` of the C library, and the expansion of a whole picture, which
//! is one C call for each pixel, beside a plain Rust loop. Only the ratios within one run mean
//! something: above 1, the library is faster.
//!
//! Argument: the number of rounds; the best one counts. `bench/run colors` builds and calls it.

mod common;

use common::{fastest, rounds, Random, DEPTHS};
use nulambiro::{expand, same_picture, Picture};
use std::ffi::c_int;
use std::hint::black_box;

const SIDE: usize = 2048;
const PIXELS: usize = SIDE * SIDE;

extern "C" {
    fn memcmp(a: *const u8, b: *const u8, len: usize) -> c_int;
}

fn same_by_memcmp(a: &[u8], b: &[u8]) -> bool {
    assert_eq!(a.len(), b.len());
    // SAFETY: both slices are readable for this length.
    unsafe { memcmp(a.as_ptr(), b.as_ptr(), a.len()) == 0 }
}

/// The plain rule, a pixel at a time.
fn color(pixel: &[u8], bpp: usize, palette: &[u8]) -> [u8; 3] {
    let word = || u16::from_le_bytes([pixel[0], pixel[1]]);
    match bpp {
        8 => {
            let at = 3 * usize::from(pixel[0]);
            [palette[at], palette[at + 1], palette[at + 2]]
        }
        15 => [word() & 31, word() >> 5 & 31, word() >> 10 & 31].map(five_bits),
        16 => [
            five_bits(word() & 31),
            six_bits(word() >> 5 & 63),
            five_bits(word() >> 11),
        ],
        _ => [pixel[0], pixel[1], pixel[2]],
    }
}

fn five_bits(c: u16) -> u8 {
    (c << 3 | c >> 2) as u8
}

fn six_bits(c: u16) -> u8 {
    (c << 2 | c >> 4) as u8
}

/// The color of the pixel with this number.
fn color_at(picture: &Picture, palette: &[u8], k: usize) -> [u8; 3] {
    let Picture { bytes, bpp, .. } = *picture;
    match bpp {
        8 => color(&bytes[k..k + 1], bpp, palette),
        15 | 16 => color(&bytes[2 * k..2 * k + 2], bpp, palette),
        _ => color(&bytes[3 * k..3 * k + 3], bpp, palette),
    }
}

fn plain_expand(picture: &Picture, palette: &[u8], canvas: &mut [u8]) {
    for (k, to) in canvas.chunks_exact_mut(3).enumerate() {
        to.copy_from_slice(&color_at(picture, palette, k));
    }
}

fn library_expand(picture: &Picture, size: usize, palette: &[u8], canvas: &mut [u8]) {
    let pixels = picture.bytes.chunks_exact(size);
    for (from, to) in pixels.zip(canvas.chunks_exact_mut(3)) {
        let byte = |i: usize| from.get(i).copied().unwrap_or(0);
        let color = expand([byte(0), byte(1), byte(2)], picture.bpp, palette);
        to.copy_from_slice(&color.expect("a good depth and a whole palette"));
    }
}

/// A whole picture of so many pixels on a side.
fn square(bytes: &[u8], side: usize, bpp: usize) -> Picture<'_> {
    Picture {
        bytes,
        pixels: side * side,
        width: side,
        height: side,
        bpp,
    }
}

/// Prints the times of so many calls or pixels.
fn show(bpp: usize, what: &str, count: usize, [other, library]: [f64; 2]) {
    let nanoseconds = |seconds: f64| seconds / count as f64 * 1e9;
    println!(
        "{bpp:>2} bpp {:>12.2} ns a {what}, the other {:>12.2}, ratio {:>5.2}",
        nanoseconds(library),
        nanoseconds(other),
        other / library
    );
}

/// Times pictures of equal bytes, of so many pixels on a side.
fn time_same(side: usize, bytes: &[Vec<u8>; 4], palette: &[u8], rounds: usize) {
    println!("same picture beside memcmp, {side} x {side}, equal");
    // Small ones take too little time for one call.
    let calls = (PIXELS / (side * side)).min(100_000);
    for (bytes, (bpp, size)) in bytes.iter().zip(DEPTHS) {
        let bytes = &bytes[..side * side * size];
        let copy = bytes.to_vec();
        let (a, b) = (square(bytes, side, bpp), square(&copy, side, bpp));
        let repeat = |same: &dyn Fn() -> bool| (0..calls).for_each(|_| assert!(same()));
        let times = fastest(
            rounds,
            [
                &mut || repeat(&|| same_by_memcmp(black_box(a.bytes), black_box(b.bytes))),
                &mut || repeat(&|| same_picture(black_box(&a), black_box(&b), palette)),
            ],
        );
        show(bpp, "call", calls, times);
    }
}

fn time_expansion(bytes: &[Vec<u8>; 4], palette: &[u8], rounds: usize) {
    println!("expansion beside a plain loop, a call for each pixel, {SIDE} x {SIDE}");
    let (mut plain, mut library) = (vec![0; 3 * PIXELS], vec![0; 3 * PIXELS]);
    for (bytes, (bpp, size)) in bytes.iter().zip(DEPTHS) {
        let picture = square(bytes, SIDE, bpp);
        let times = fastest(
            rounds,
            [
                &mut || plain_expand(black_box(&picture), palette, &mut plain),
                &mut || library_expand(black_box(&picture), size, palette, &mut library),
            ],
        );
        assert!(plain == library, "the expansions differ at {bpp} bpp");
        show(bpp, "pixel", PIXELS, times);
    }
}

fn main() {
    let (rounds, mut random) = (rounds(), Random::new(1));
    let palette = random.bytes(768);
    let bytes = DEPTHS.map(|(_, size)| random.bytes(size * PIXELS));
    for side in [1, 8, 64, SIDE] {
        time_same(side, &bytes, &palette, rounds);
    }
    time_expansion(&bytes, &palette, rounds);
}
