//! What a call does to the target it is lent.

use crate::OLD;
use nulambiro::{decompress_into, Refusal, RlePixelFormat};

#[test]
fn bytes_after_the_painted_pixels_stay() {
    let mut target = [OLD; 20];
    let report = decompress_into(&[0x24, 0x22], &mut target, 4, 2, 8);
    assert_eq!(report.pixels, 6);
    assert_eq!(target[..6], [0xFF, 0xFF, 0xFF, 0xFF, 0x00, 0x00]);
    assert!(target[6..].iter().all(|byte| *byte == OLD));
}

#[test]
fn longer_target_gets_the_same_report() {
    let stream = [0x24, 0x22, 0xA0];
    let exact = decompress_into(&stream, &mut [OLD; 8], 4, 2, 8);
    let longer = decompress_into(&stream, &mut [OLD; 1000], 4, 2, 8);
    assert_eq!(exact, longer);
}

#[test]
fn longer_target_gives_no_more_room() {
    let mut target = [OLD; 20];
    let report = decompress_into(&[0x09], &mut target, 4, 2, 8);
    let past = Refusal::InvalidImageSize {
        maximum_additional: 8,
        required_additional: 9,
    };
    assert_eq!(report.outcome, Err(past));
    assert_eq!(target, [OLD; 20]);
}

#[test]
fn short_stream_keeps_the_old_picture() {
    let mut target: Vec<u8> = (1..=8).collect();
    let report = decompress_into(&[0x22], &mut target, 4, 2, 8);
    assert_eq!(
        (report.outcome, report.pixels),
        (Ok(RlePixelFormat::Rgb8), 2)
    );
    assert_eq!(target, [0xFF, 0xFF, 3, 4, 5, 6, 7, 8]);
}

#[test]
fn painted_bytes_do_not_depend_on_the_old_ones() {
    // All kinds of orders in both rows, and at the end one that is refused.
    let stream = [
        0x01, 0x01, 0xC1, 0x0A, 0xE1, 0x01, 0x02, 0x22, 0x02, 0x02, 0x40, 0x04, 0x15, 0xD1, 0x0B,
        0xA5, 0x62, 0x33, 0x82, 0x44, 0x45, 0xF9, 0xFA, 0xFD, 0xFE, 0x1F,
    ];
    let mut zeros = [0x00; 48];
    let mut ones = [0xFF; 48];
    let first = decompress_into(&stream, &mut zeros, 6, 8, 8);
    let second = decompress_into(&stream, &mut ones, 6, 8, 8);
    assert_eq!(first, second);
    assert_eq!(first.orders, 15);
    assert_eq!(zeros[..first.pixels], ones[..first.pixels]);
    assert!(zeros[first.pixels..].iter().all(|byte| *byte == 0x00));
    assert!(ones[first.pixels..].iter().all(|byte| *byte == 0xFF));
}

#[test]
fn empty_slices_are_allowed() {
    let empty = decompress_into(&[], &mut [], 4, 2, 8);
    let short = Refusal::BufferTooShort {
        needed: 8,
        given: 0,
    };
    assert_eq!(empty.outcome, Err(short));
    let nothing_painted = decompress_into(&[], &mut [OLD; 8], 4, 2, 8);
    assert_eq!(nothing_painted.outcome, Ok(RlePixelFormat::Rgb8));
}
