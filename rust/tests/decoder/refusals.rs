//! What is refused, with which numbers, and what stays painted.

use crate::{decode, over_old, OLD};
use nulambiro::rle::RleError;
use nulambiro::{decompress_into, picture_len, Refusal, Report};

/// A tile of 4 x 2 pixels at 8 bits per pixel is refused after these painted bytes and orders.
fn assert_refused(stream: &[u8], refusal: Refusal, painted: &[u8], orders: usize) {
    let (report, target) = decode(stream, 4, 2, 8);
    assert_eq!(report.outcome, Err(refusal));
    assert_eq!(target, over_old(painted, 8));
    assert_eq!((report.pixels, report.orders), (painted.len(), orders));
}

/// The sizes, the depth or the target's length are refused, and no byte of the target changes.
fn assert_untouched(target_len: usize, sizes: (usize, usize, usize), refusal: Refusal) {
    let (width, height, bpp) = sizes;
    let mut target = vec![OLD; target_len];
    let report = decompress_into(&[0x24, 0xA0], &mut target, width, height, bpp);
    let expected = Report {
        outcome: Err(refusal),
        pixels: 0,
        orders: 0,
    };
    assert_eq!(report, expected, "{sizes:?}");
    assert!(target.iter().all(|byte| *byte == OLD), "{sizes:?}");
}

#[test]
fn order_past_the_end_of_the_picture_paints_nothing() {
    let past = Refusal::InvalidImageSize {
        maximum_additional: 8,
        required_additional: 9,
    };
    assert_refused(&[0x09], past, &[], 0);
}

#[test]
fn header_that_is_no_order_keeps_the_pixels_before_it() {
    for header in (0xA0..=0xBF).chain([0xF5, 0xFB, 0xFC, 0xFF]) {
        assert_refused(&[0x24, header], Refusal::BadOrderCode, &[0xFF; 4], 1);
    }
}

#[test]
fn fgbg_image_keeps_its_pixels_before_a_missing_mask() {
    let painted = [0xFF, 0, 0, 0, 0, 0, 0, 0xFF];
    let missing = Refusal::NotEnoughBytes {
        expected: 1,
        actual: 0,
    };
    assert_refused(&[0x40, 0x0B, 0x81], missing, &painted, 0);
}

#[test]
fn fgbg_image_keeps_its_pixels_before_a_mask_that_does_not_fit() {
    let painted = [0xFF, 0, 0, 0, 0, 0, 0, 0xFF];
    let past = Refusal::InvalidImageSize {
        maximum_additional: 0,
        required_additional: 4,
    };
    assert_refused(&[0x40, 0x0B, 0x81, 0x00], past, &painted, 0);
}

#[test]
fn two_byte_length_of_zero_is_refused() {
    for header in [0xF0, 0xF1, 0xF2, 0xF3, 0xF4, 0xF6, 0xF7, 0xF8] {
        assert_refused(&[header, 0x00, 0x00], Refusal::UnexpectedZeroLength, &[], 0);
    }
}

#[test]
fn missing_stream_bytes_are_counted() {
    for (stream, expected, actual) in [
        (&[0xF0, 0x00][..], 2, 1),
        (&[0x00], 1, 0),
        (&[0x61], 1, 0),
        (&[0xE1, 0x0A], 2, 1),
        (&[0x83, 0x0A], 3, 1),
        (&[0xD1], 1, 0),
    ] {
        assert_refused(stream, Refusal::NotEnoughBytes { expected, actual }, &[], 0);
    }
}

#[test]
fn missing_stream_bytes_come_before_a_picture_that_is_too_small() {
    let missing = Refusal::NotEnoughBytes {
        expected: 31,
        actual: 0,
    };
    assert_refused(&[0x9F], missing, &[], 0);
}

#[test]
fn dithered_run_needs_room_for_its_pairs() {
    let (report, _) = decode(&[0xF8, 0xFF, 0xFF, 1, 2, 3, 4, 5, 6], 4, 2, 24);
    let past = Refusal::InvalidImageSize {
        maximum_additional: 24,
        required_additional: 393_210,
    };
    assert_eq!(report.outcome, Err(past));
}

#[test]
fn stream_that_goes_on_after_the_picture_is_refused() {
    let past = Refusal::InvalidImageSize {
        maximum_additional: 0,
        required_additional: 1,
    };
    assert_refused(&[0x08, 0xFE], past, &[0x00; 8], 1);
}

#[test]
fn depth_is_tested_before_sizes() {
    for bpp in [
        0,
        1,
        7,
        9,
        14,
        17,
        23,
        25,
        32,
        264,
        65_544,
        (1 << 32) + 8,
        usize::MAX,
    ] {
        assert_untouched(8, (0, 9000, bpp), Refusal::InvalidBpp { bpp });
    }
}

#[test]
fn empty_picture_is_tested_before_a_large_one() {
    for (width, height) in [(0, 9000), (9000, 0), (0, 0), (usize::MAX, 0)] {
        assert_untouched(8, (width, height, 8), Refusal::EmptyImage);
    }
}

#[test]
fn both_sides_are_told_where_one_is_too_large() {
    for (width, height) in [
        (8193, 2),
        (2, 8193),
        (1 << 16, 1 << 16),
        (1 << 32, 1),
        ((1 << 32) + 4, 2),
        (usize::MAX, usize::MAX),
        (1, usize::MAX),
    ] {
        let refusal = Refusal::DimensionsTooLarge { width, height };
        assert_untouched(0, (width, height, 24), refusal);
    }
}

#[test]
fn largest_sides_are_not_refused() {
    assert_eq!(picture_len(8192, 2, 8), Ok(16_384));
    assert_eq!(picture_len(8192, 8192, 24), Ok(201_326_592));
}

#[test]
fn short_target_is_refused_before_the_stream_is_read() {
    for given in [0, 1, 7] {
        assert_untouched(
            given,
            (4, 2, 8),
            Refusal::BufferTooShort { needed: 8, given },
        );
    }
    let refusal = Refusal::BufferTooShort {
        needed: 201_326_592,
        given: 7,
    };
    assert_untouched(7, (8192, 8192, 24), refusal);
}

#[test]
fn message_names_the_bytes_that_are_missing() {
    let short = Refusal::BufferTooShort {
        needed: 768,
        given: 7,
    };
    assert_eq!(
        short.to_string(),
        "the buffer is too short: 768 bytes are needed, 7 were given"
    );
}

#[test]
fn message_is_that_of_the_module_rle() {
    let (width, height) = (8193, 2);
    let refusal = Refusal::DimensionsTooLarge { width, height };
    let error = RleError::DimensionsTooLarge { width, height };
    assert_eq!(refusal.to_string(), error.to_string());
}
