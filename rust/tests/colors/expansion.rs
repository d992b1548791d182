//! Expansion of one pixel.

use crate::random::Random;
use nulambiro::{expand, Refusal};

/// The rule of expansion: bits out of the pixel's number, and below them the highest ones again.
fn color(pixel: &[u8], bpp: usize, palette: &[u8]) -> [u8; 3] {
    let channel = |number: u32, from: u32, bits: u32| {
        let c = (number >> from) & ((1 << bits) - 1);
        (c << (8 - bits) | c >> (2 * bits - 8)) as u8
    };
    let number = || u32::from(pixel[0]) | u32::from(pixel[1]) << 8;
    match bpp {
        8 => {
            let entry = palette.chunks(3).nth(usize::from(pixel[0])).unwrap();
            [entry[0], entry[1], entry[2]]
        }
        15 => [(0, 5), (5, 5), (10, 5)].map(|(from, bits)| channel(number(), from, bits)),
        16 => [(0, 5), (5, 6), (11, 5)].map(|(from, bits)| channel(number(), from, bits)),
        24 => [pixel[0], pixel[1], pixel[2]],
        _ => panic!("no depth of {bpp} bits"),
    }
}

#[test]
fn all_pixels_of_two_bytes_follow_the_rule() {
    for bpp in [15, 16] {
        for number in 0..=u16::MAX {
            let [low, high] = number.to_le_bytes();
            // The third byte is not used, nor is the palette.
            let pixel = [low, high, low ^ 0x5A];
            assert_eq!(expand(pixel, bpp, &[]), Ok(color(&pixel, bpp, &[])));
        }
    }
}

#[test]
fn each_value_of_a_channel_has_its_byte() {
    let pixel = |number: u16| [number as u8, (number >> 8) as u8, 0];
    for c in 0..32 {
        let byte = (8 * c + c / 4) as u8;
        assert_eq!(expand(pixel(c), 15, &[]), Ok([byte, 0, 0]));
        assert_eq!(expand(pixel(c << 5), 15, &[]), Ok([0, byte, 0]));
        assert_eq!(expand(pixel(c << 10), 15, &[]), Ok([0, 0, byte]));
        assert_eq!(expand(pixel(c), 16, &[]), Ok([byte, 0, 0]));
        assert_eq!(expand(pixel(c << 11), 16, &[]), Ok([0, 0, byte]));
    }
    for c in 0..64 {
        let byte = (4 * c + c / 16) as u8;
        assert_eq!(expand(pixel(c << 5), 16, &[]), Ok([0, byte, 0]));
    }
}

#[test]
fn white_and_black_are_the_same_at_depths_without_a_palette() {
    for (bpp, white) in [
        (15, [0xFF, 0x7F, 0]),
        (16, [0xFF, 0xFF, 0]),
        (24, [0xFF, 0xFF, 0xFF]),
    ] {
        assert_eq!(expand(white, bpp, &[]), Ok([255, 255, 255]));
        assert_eq!(expand([0, 0, 0], bpp, &[]), Ok([0, 0, 0]));
    }
}

#[test]
fn top_bit_of_15_bits_is_ignored() {
    for low in 0..=u8::MAX {
        let pixel = [low, 0x12, 0];
        assert_eq!(expand(pixel, 15, &[]), expand([low, 0x92, 0], 15, &[]));
    }
}

#[test]
fn three_bytes_are_copied() {
    for channel in 0..3 {
        for value in 0..=u8::MAX {
            let mut pixel = [0x11, 0x22, 0x33];
            pixel[channel] = value;
            assert_eq!(expand(pixel, 24, &[]), Ok(pixel));
        }
    }
}

#[test]
fn one_byte_is_an_index_into_the_palette() {
    let palette = Random::new(8).bytes(768 + 5);
    for index in 0..=u8::MAX {
        let pixel = [index, !index, 0x77];
        assert_eq!(expand(pixel, 8, &palette), Ok(color(&pixel, 8, &palette)));
    }
}

#[test]
fn palette_entries_stand_blue_green_red() {
    let mut palette = [0; 768];
    palette[765..].copy_from_slice(&[1, 2, 3]);
    assert_eq!(expand([255, 0, 0], 8, &palette), Ok([1, 2, 3]));
}

#[test]
fn short_palette_is_refused_at_8_bits_alone() {
    for len in [0, 1, 765, 767] {
        let palette = vec![0; len];
        let short = Refusal::BufferTooShort {
            needed: 768,
            given: len,
        };
        assert_eq!(expand([0, 0, 0], 8, &palette), Err(short));
        for bpp in [15, 16, 24] {
            assert!(expand([0, 0, 0], bpp, &palette).is_ok());
        }
    }
    assert!(expand([0, 0, 0], 8, &[0; 768]).is_ok());
}

#[test]
fn other_depths_are_refused_before_the_palette() {
    for bpp in [0, 1, 7, 9, 14, 17, 23, 25, 32, 264, 65544, usize::MAX] {
        let refused = Err(Refusal::InvalidBpp { bpp });
        assert_eq!(expand([1, 2, 3], bpp, &[0; 768]), refused);
        assert_eq!(expand([1, 2, 3], bpp, &[]), refused);
    }
}
