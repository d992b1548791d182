//! The decoder gives every picture back.

use crate::random::Random;
use crate::{DEPTHS, OLD};
use nulambiro::{compress, compress_bound, decompress_into, RlePixelFormat};

fn assert_comes_back(pixels: &[u8], width: usize, height: usize, bpp: usize) {
    let stream = compress(pixels, width, height, bpp).expect("a good picture");
    assert!(stream.len() <= compress_bound(width, height, bpp));
    let mut target = vec![OLD; pixels.len()];
    let report = decompress_into(&stream, &mut target, width, height, bpp);
    let format = match bpp {
        8 => RlePixelFormat::Rgb8,
        15 => RlePixelFormat::Rgb15,
        16 => RlePixelFormat::Rgb16,
        _ => RlePixelFormat::Rgb24,
    };
    assert_eq!(report.outcome, Ok(format));
    assert_eq!(report.pixels, width * height);
    assert!(target == pixels, "{width} x {height}, {bpp} bits");
}

/// Pixels of few colors; many are as the one before or as the one above.
fn pixels(random: &mut Random, count: usize, width: usize, size: usize) -> Vec<u8> {
    let mut bytes: Vec<u8> = Vec::with_capacity(count * size);
    let mut like = 0;
    for k in 0..count {
        if random.one_in(6) {
            like = random.below(3);
        }
        let from = match like {
            0 if k > 0 => Some((k - 1) * size),
            1 if k >= width => Some((k - width) * size),
            _ => None,
        };
        for i in 0..size {
            let byte = from.map_or_else(|| random.byte() & 0x81, |from| bytes[from + i]);
            bytes.push(byte);
        }
    }
    bytes
}

#[test]
fn pictures_by_chance_come_back() {
    let mut random = Random::new(4);
    for _ in 0..3000 {
        let (bpp, size) = random.pick(&DEPTHS);
        let (width, height) = (random.range(1, 40), random.range(1, 30));
        let picture = pixels(&mut random, width * height, width, size);
        assert_comes_back(&picture, width, height, bpp);
    }
}

#[test]
fn long_pictures_come_back() {
    let mut random = Random::new(5);
    for (bpp, size) in DEPTHS {
        for (width, height) in [(1, 8192), (8192, 1), (300, 500), (8192, 20), (7, 8192)] {
            let picture = pixels(&mut random, width * height, width, size);
            assert_comes_back(&picture, width, height, bpp);
            // One row again and again, and one color.
            let row = &picture[..width * size];
            assert_comes_back(&row.repeat(height), width, height, bpp);
            assert_comes_back(&picture[..size].repeat(width * height), width, height, bpp);
        }
    }
}
