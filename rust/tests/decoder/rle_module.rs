//! The module `rle` behaves as IronRDP's does.

use nulambiro::rle::{self, RleError, RlePixelFormat};
use std::error::Error;

type Decode = fn(&[u8], &mut Vec<u8>, usize, usize) -> Result<RlePixelFormat, RleError>;

const BY_DEPTH: [(usize, RlePixelFormat, Decode); 4] = [
    (24, RlePixelFormat::Rgb24, rle::decompress_24_bpp),
    (16, RlePixelFormat::Rgb16, rle::decompress_16_bpp),
    (15, RlePixelFormat::Rgb15, rle::decompress_15_bpp),
    (8, RlePixelFormat::Rgb8, rle::decompress_8_bpp),
];

#[test]
fn function_of_each_depth_decodes_that_depth() {
    for (bpp, format, decode) in BY_DEPTH {
        let (mut by_name, mut by_number) = (Vec::new(), Vec::new());
        assert_eq!(decode(&[0x24, 0x21], &mut by_name, 4, 2), Ok(format));
        assert_eq!(
            rle::decompress(&[0x24, 0x21], &mut by_number, 4, 2, bpp),
            Ok(format)
        );
        assert_eq!(by_name, by_number);
    }
}

#[test]
fn short_target_is_filled_up_with_zeros() {
    let mut target = vec![0x55; 3];
    assert_eq!(
        rle::decompress(&[0x22], &mut target, 4, 2, 8),
        Ok(RlePixelFormat::Rgb8)
    );
    assert_eq!(target, [0xFF, 0xFF, 0x55, 0, 0, 0, 0, 0]);
}

#[test]
fn long_target_is_cut() {
    let mut target = vec![0x55; 100];
    assert_eq!(
        rle::decompress(&[0x22], &mut target, 4, 2, 8),
        Ok(RlePixelFormat::Rgb8)
    );
    assert_eq!(target, [0xFF, 0xFF, 0x55, 0x55, 0x55, 0x55, 0x55, 0x55]);
}

#[test]
fn refused_stream_leaves_a_resized_target() {
    let mut target = Vec::new();
    assert_eq!(
        rle::decompress(&[0x22, 0xA0], &mut target, 4, 2, 8),
        Err(RleError::BadOrderCode)
    );
    assert_eq!(target, [0xFF, 0xFF, 0, 0, 0, 0, 0, 0]);
}

#[test]
fn refused_size_leaves_the_target_alone() {
    let mut target = vec![0x55; 3];
    let refused = [
        ((4, 2, 32), RleError::InvalidBpp { bpp: 32 }),
        ((0, 2, 8), RleError::EmptyImage),
        (
            (8193, 2, 8),
            RleError::DimensionsTooLarge {
                width: 8193,
                height: 2,
            },
        ),
    ];
    for ((width, height, bpp), error) in refused {
        assert_eq!(
            rle::decompress(&[0x22], &mut target, width, height, bpp),
            Err(error)
        );
        assert_eq!(target, [0x55; 3]);
    }
}

#[test]
fn errors_carry_the_numbers_of_the_stream() {
    let mut target = Vec::new();
    for (stream, error) in [
        (
            &[0x09][..],
            RleError::InvalidImageSize {
                maximum_additional: 8,
                required_additional: 9,
            },
        ),
        (
            &[0xF0, 0x00],
            RleError::NotEnoughBytes {
                expected: 2,
                actual: 1,
            },
        ),
        (&[0xF0, 0x00, 0x00], RleError::UnexpectedZeroLength),
    ] {
        assert_eq!(rle::decompress(stream, &mut target, 4, 2, 8), Err(error));
    }
}

const MESSAGES: [(RleError, &str); 7] = [
    (
        RleError::InvalidBpp { bpp: 32 },
        "32 bits per pixel are not supported, only 8, 15, 16 and 24",
    ),
    (
        RleError::BadOrderCode,
        "the stream has a header byte that is no order",
    ),
    (
        RleError::NotEnoughBytes {
            expected: 2,
            actual: 1,
        },
        "the stream ends inside an order: 2 bytes expected, 1 left",
    ),
    (
        RleError::InvalidImageSize {
            maximum_additional: 8,
            required_additional: 9,
        },
        "an order goes past the end of the picture: it writes 9 bytes, 8 are left",
    ),
    (
        RleError::EmptyImage,
        "the picture is empty: its width or height is 0",
    ),
    (
        RleError::UnexpectedZeroLength,
        "an order has a two-byte run length of 0",
    ),
    (
        RleError::DimensionsTooLarge {
            width: 8193,
            height: 2,
        },
        "the picture is too large: 8193 x 2 pixels, but 8192 is the most each way",
    ),
];

#[test]
fn messages_say_what_was_wrong() {
    for (error, message) in MESSAGES {
        let error: Box<dyn Error> = Box::new(error);
        assert_eq!(error.to_string(), message);
    }
}
