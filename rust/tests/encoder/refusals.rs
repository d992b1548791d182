//! What is refused, with which numbers, and that the output stays.

use crate::{DEPTHS, OLD};
use nulambiro::rle::RleError;
use nulambiro::{compress, compress_bound, compress_into, CompressError};

/// Depth, sizes or the pixels' length are refused, whatever the output's length, and no byte of it
/// changes.
fn assert_refused(pixels: &[u8], sizes: (usize, usize, usize), error: &CompressError) {
    let (width, height, bpp) = sizes;
    for room in [0, 1, 100] {
        let mut output = vec![OLD; room];
        let found = compress_into(pixels, &mut output, width, height, bpp);
        assert_eq!(found.as_ref(), Err(error), "{sizes:?}, output of {room}");
        assert!(output.iter().all(|byte| *byte == OLD), "{sizes:?}");
    }
    let found = compress(pixels, width, height, bpp);
    assert_eq!(found.as_ref(), Err(error), "{sizes:?}");
}

#[test]
fn depth_is_tested_before_sizes() {
    for bpp in [
        0,
        1,
        7,
        9,
        14,
        17,
        23,
        25,
        32,
        264,
        65_544,
        (1 << 32) + 8,
        usize::MAX,
    ] {
        assert_refused(&[7; 8], (0, 9000, bpp), &CompressError::InvalidBpp { bpp });
        assert_eq!(compress_bound(4, 2, bpp), 0);
    }
}

#[test]
fn empty_picture_is_tested_before_a_large_one() {
    for (width, height) in [(0, 9000), (9000, 0), (0, 0), (usize::MAX, 0), (0, 1)] {
        assert_refused(&[7; 8], (width, height, 8), &CompressError::EmptyImage);
        assert_eq!(compress_bound(width, height, 8), 0);
    }
}

#[test]
fn both_sides_are_told_where_one_is_too_large() {
    for (width, height) in [
        (8193, 2),
        (2, 8193),
        (1 << 16, 1 << 16),
        (1 << 32, 1),
        ((1 << 32) + 4, 2),
        (usize::MAX, usize::MAX),
        (1, usize::MAX),
    ] {
        let error = CompressError::DimensionsTooLarge { width, height };
        assert_refused(&[7; 8], (width, height, 24), &error);
        assert_eq!(compress_bound(width, height, 24), 0);
    }
}

#[test]
fn largest_sides_are_not_refused() {
    for (width, height) in [(8192, 1), (1, 8192)] {
        let stream = compress(&[7; 8192], width, height, 8);
        assert_eq!(stream, Ok(vec![0xF3, 0x00, 0x20, 7]));
    }
    let missing = CompressError::PixelsTooShort {
        needed: 201_326_592,
        given: 8,
    };
    assert_refused(&[7; 8], (8192, 8192, 24), &missing);
}

#[test]
fn missing_pixels_are_counted_in_bytes() {
    for (bpp, size) in DEPTHS {
        let needed = 4 * 2 * size;
        for given in [0, 1, needed - 1] {
            let error = CompressError::PixelsTooShort { needed, given };
            assert_refused(&vec![7; given], (4, 2, bpp), &error);
        }
        assert!(compress(&vec![7; needed], 4, 2, bpp).is_ok());
    }
}

#[test]
fn short_output_is_refused_exactly_below_the_stream() {
    let pixels = [1, 7, 7, 7, 7, 2, 3, 4];
    let stream = [0x81, 1, 0x64, 7, 0x83, 2, 3, 4];
    for room in 0..20 {
        let mut output = vec![OLD; room];
        let found = compress_into(&pixels, &mut output, 4, 2, 8);
        if room < stream.len() {
            assert_eq!(found, Err(CompressError::OutputTooShort));
            assert!(output.iter().all(|byte| *byte == OLD));
        } else {
            assert_eq!(found, Ok(stream.len()));
            assert_eq!(output[..stream.len()], stream);
        }
    }
}

#[test]
fn messages_say_what_was_wrong() {
    for (error, message) in [
        (
            CompressError::PixelsTooShort {
                needed: 8,
                given: 7,
            },
            "there are too few pixels: the picture has 8 bytes, 7 were given",
        ),
        (
            CompressError::OutputTooShort,
            "the stream is longer than the output",
        ),
    ] {
        assert_eq!(error.to_string(), message);
    }
}

#[test]
fn messages_of_depth_and_sizes_are_those_of_the_decoder() {
    let (bpp, width, height) = (32, 8193, 2);
    for (error, decoder) in [
        (
            CompressError::InvalidBpp { bpp },
            RleError::InvalidBpp { bpp },
        ),
        (CompressError::EmptyImage, RleError::EmptyImage),
        (
            CompressError::DimensionsTooLarge { width, height },
            RleError::DimensionsTooLarge { width, height },
        ),
    ] {
        assert_eq!(error.to_string(), decoder.to_string());
    }
}
