//! Orders by their numbers.

use crate::{record, records};
use nulambiro::LengthPlace;

const SIZES: (usize, usize, usize) = (4, 2, 8);

#[test]
fn orders_are_counted_from_0() {
    let stream = [0x24, 0xF1, 0x02, 0x00, 0xFE];
    assert_eq!(record(&stream, SIZES, 0), Some((0x24, LengthPlace::Header)));
    assert_eq!(
        record(&stream, SIZES, 1),
        Some((0xF1, LengthPlace::TwoBytes))
    );
    assert_eq!(record(&stream, SIZES, 2), Some((0xFE, LengthPlace::None)));
    assert_eq!(record(&stream, SIZES, 3), None);
}

#[test]
fn number_past_the_last_order_has_none() {
    // Eight orders fill the picture.
    let stream = [0xFE; 8];
    for n in 0..8 {
        assert_eq!(record(&stream, SIZES, n), Some((0xFE, LengthPlace::None)));
    }
    // Some of these are below 8 if their high bits are lost.
    for n in [8, 9, 256, 1 << 16, 1 << 32, usize::MAX - 1, usize::MAX] {
        assert_eq!(record(&stream, SIZES, n), None, "order {n}");
    }
}

#[test]
fn empty_stream_has_no_order() {
    for n in [0, 1, usize::MAX] {
        assert_eq!(record(&[], SIZES, n), None);
    }
    assert_eq!(records(&[], SIZES), []);
}

#[test]
fn every_order_of_a_long_stream_is_found_by_its_number() {
    // White and black pixels in turns, and at the end a run.
    let mut stream = [0xFD, 0xFE].repeat(2000);
    stream.push(0x21);
    let sizes = (4001, 1, 24);
    for n in [0, 1, 254, 255, 256, 257, 3998, 3999] {
        let header = [0xFD, 0xFE][n % 2];
        assert_eq!(record(&stream, sizes, n), Some((header, LengthPlace::None)));
    }
    assert_eq!(
        record(&stream, sizes, 4000),
        Some((0x21, LengthPlace::Header))
    );
    assert_eq!(record(&stream, sizes, 4001), None);
}
