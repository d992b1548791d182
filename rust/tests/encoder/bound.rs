//! The longest stream of a size: no picture has a longer one, and some have it.

use crate::{counting, counting_wide, DEPTHS};
use nulambiro::{compress, compress_bound};

/// Sizes with these numbers of pixels, each no multiple of 251 in width.
const SIZES: [(usize, usize); 21] = [
    (1, 1),
    (2, 1),
    (31, 1),
    (32, 1),
    (35, 1),
    (36, 1),
    (66, 1),
    (67, 1),
    (35, 2),
    (287, 1),
    (288, 1),
    (17, 17),
    (64, 64),
    (255, 257),
    (256, 256),
    (331, 198),
    (65, 1009),
    (510, 257),
    (8192, 16),
    (16, 8192),
    (1024, 1024),
];

/// Images of 32 pixels, whose head has two bytes, with the shortest color run between them, which
/// is as long as what it writes; at the end an image of what is left.
fn worst(count: usize) -> Vec<u8> {
    let mut pixels = counting(count);
    let mut at = 32;
    while at + 3 < count {
        let color = pixels[at];
        pixels[at..at + 3].fill(color);
        at += 35;
    }
    pixels
}

#[test]
fn some_picture_of_8_bits_has_the_longest_stream() {
    for (width, height) in SIZES {
        let stream = compress(&worst(width * height), width, height, 8).expect("a good picture");
        let n = width * height;
        assert_eq!(stream.len(), n + (n + 3) / 35 + 1, "{width} x {height}");
        assert_eq!(stream.len(), compress_bound(width, height, 8));
    }
}

#[test]
fn image_is_the_longest_stream_of_wider_pixels() {
    for (bpp, size) in DEPTHS.into_iter().filter(|depth| depth.1 > 1) {
        for (width, height) in SIZES {
            let n = width * height;
            let pixels = counting_wide(n, size);
            let stream = compress(&pixels, width, height, bpp).expect("a good picture");
            let rest = match n % 65_535 {
                0 => 0,
                1..=31 => 1,
                32..=287 => 2,
                _ => 3,
            };
            assert_eq!(stream.len(), n * size + 3 * (n / 65_535) + rest);
            assert_eq!(stream.len(), compress_bound(width, height, bpp));
        }
    }
}

#[test]
fn largest_picture_has_a_bound() {
    let n = 8192 * 8192;
    assert_eq!(compress_bound(8192, 8192, 8), n + (n + 3) / 35 + 1);
    // 1024 images of 65535 pixels, and one of the 1024 pixels that are left.
    assert_eq!(compress_bound(8192, 8192, 15), 2 * n + 3 * 1024 + 3);
    assert_eq!(compress_bound(8192, 8192, 16), 2 * n + 3 * 1024 + 3);
    assert_eq!(compress_bound(8192, 8192, 24), 3 * n + 3 * 1024 + 3);
}
