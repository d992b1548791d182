//! Streams that are decoded to their end. Most are tiles of 4 x 2 pixels at 8 bits per pixel.

use crate::{decode, over_old};
use nulambiro::RlePixelFormat;

/// The tile's painted bytes and its number of orders are these, and the rest of it is as before.
fn assert_tile(stream: &[u8], painted: &[u8], orders: usize) {
    let (report, target) = decode(stream, 4, 2, 8);
    assert_eq!(report.outcome, Ok(RlePixelFormat::Rgb8));
    assert_eq!(target, over_old(painted, 8));
    assert_eq!((report.pixels, report.orders), (painted.len(), orders));
}

#[test]
fn empty_stream_paints_nothing() {
    assert_tile(&[], &[], 0);
}

#[test]
fn background_run_after_another_starts_with_a_foreground_pixel() {
    assert_tile(&[0x02, 0x02], &[0x00, 0x00, 0xFF, 0x00], 2);
}

#[test]
fn insert_is_dropped_where_the_first_row_ends() {
    assert_tile(&[0x04, 0x01], &[0x00; 5], 2);
}

#[test]
fn first_row_ends_only_at_an_order() {
    assert_tile(&[0x26], &[0xFF; 6], 1);
}

#[test]
fn foreground_run_is_exclusive_or_with_the_row_above() {
    assert_tile(&[0x24, 0x22], &[0xFF, 0xFF, 0xFF, 0xFF, 0x00, 0x00], 2);
}

#[test]
fn insert_in_a_later_row_is_exclusive_or_with_the_row_above() {
    assert_tile(
        &[0x24, 0x01, 0x01],
        &[0xFF, 0xFF, 0xFF, 0xFF, 0xFF, 0x00],
        3,
    );
}

#[test]
fn other_order_between_background_runs_clears_the_insert() {
    assert_tile(&[0x01, 0xFE, 0x01], &[0x00; 3], 3);
}

#[test]
fn dithered_run_writes_pairs() {
    assert_tile(&[0xE2, 0x0A, 0x0B], &[0x0A, 0x0B, 0x0A, 0x0B], 1);
}

#[test]
fn lowest_bit_of_a_mask_comes_first() {
    let painted = [0xFF, 0x00, 0xFF, 0x00, 0x00, 0x00, 0x00, 0x00];
    assert_tile(&[0x41, 0x05], &painted, 1);
}

#[test]
fn special_fgbg_images_have_masks_03_and_05() {
    let mask_03 = [0xFF, 0xFF, 0x00, 0x00, 0x00, 0x00, 0x00, 0x00];
    assert_tile(&[0xF9], &mask_03, 1);
    let mask_05 = [0xFF, 0x00, 0xFF, 0x00, 0x00, 0x00, 0x00, 0x00];
    assert_tile(&[0xFA], &mask_05, 1);
}

#[test]
fn unused_bits_of_the_last_mask_are_ignored() {
    assert_tile(&[0x40, 0x01, 0xFD], &[0xFF, 0x00], 1);
}

#[test]
fn one_order_may_fill_the_picture() {
    assert_tile(&[0x08], &[0x00; 8], 1);
}

#[test]
fn foreground_that_was_set_stays_for_later_orders() {
    assert_tile(&[0xC1, 0x0A, 0x21], &[0x0A, 0x0A], 2);
    assert_tile(&[0xD1, 0x0A, 0x81], &[0x0A, 0, 0, 0, 0, 0, 0, 0x0A], 1);
}

#[test]
fn color_run_repeats_one_pixel_and_color_image_copies() {
    assert_tile(&[0x63, 0x07], &[0x07; 3], 1);
    assert_tile(&[0x83, 0x07, 0x08, 0x09], &[0x07, 0x08, 0x09], 1);
}

#[test]
fn one_byte_length_starts_where_the_header_ends() {
    for (stream, pixels) in [
        (&[0x00, 0x00][..], 32),
        (&[0x00, 0xFF], 287),
        (&[0xC0, 0x00, 0x0A], 16),
        (&[0xE0, 0x00, 0x0A, 0x0B], 32),
        (&[0x40, 0x00, 0x01], 1),
        (&[0xD0, 0x00, 0x0A, 0x01], 1),
    ] {
        let (report, _) = decode(stream, 20, 20, 8);
        assert_eq!(report.outcome, Ok(RlePixelFormat::Rgb8));
        assert_eq!((report.pixels, report.orders), (pixels, 1), "{stream:02x?}");
    }
}

#[test]
fn two_byte_length_has_its_low_byte_first() {
    let (report, _) = decode(&[0xF0, 0x02, 0x01], 20, 20, 8);
    assert_eq!((report.pixels, report.orders), (0x0102, 1));
}

#[test]
fn one_byte_paints_at_most_26214_pixels() {
    let (report, _) = decode(&[0xF8, 0xFF, 0xFF, 0x0A, 0x0B], 8192, 16, 8);
    assert_eq!(report.outcome, Ok(RlePixelFormat::Rgb8));
    assert_eq!(report.pixels, 5 * 26_214);
}

#[test]
fn white_and_black_are_those_of_the_depth() {
    for (bpp, format, painted) in [
        (8, RlePixelFormat::Rgb8, &[0xFF, 0x00][..]),
        (15, RlePixelFormat::Rgb15, &[0xFF, 0x7F, 0x00, 0x00]),
        (16, RlePixelFormat::Rgb16, &[0xFF, 0xFF, 0x00, 0x00]),
        (
            24,
            RlePixelFormat::Rgb24,
            &[0xFF, 0xFF, 0xFF, 0x00, 0x00, 0x00],
        ),
    ] {
        let (report, target) = decode(&[0xFD, 0xFE], 1, 2, bpp);
        assert_eq!(report.outcome, Ok(format));
        assert_eq!((report.pixels, report.orders), (2, 2));
        assert_eq!(target, painted);
    }
}

#[test]
fn first_foreground_is_the_white_of_the_depth() {
    let (_, target) = decode(&[0x21], 1, 1, 15);
    assert_eq!(target, [0xFF, 0x7F]);
}

#[test]
fn top_bit_at_15_bits_is_kept() {
    let (_, target) = decode(&[0x61, 0x34, 0xF2], 1, 1, 15);
    assert_eq!(target, [0x34, 0xF2]);
}
