//! Where decoding is refused, there is no order from there on.

use crate::{assert_records, record, records, DEPTHS};
use nulambiro::LengthPlace::{Header, OneByte, TwoBytes};

#[test]
fn fgbg_image_cut_short_by_a_missing_mask_has_no_record() {
    // Twelve pixels need two masks.
    assert_records(&[0x40, 0x0B, 0x81], (4, 2, 8), &[]);
    assert_records(&[0x40, 0x0B, 0x81], (4, 3, 8), &[]);
    let stream = [0x24, 0x40, 0x0B, 0x81];
    assert_records(&stream, (4, 3, 8), &[(0x24, Header)]);
    assert_records(&stream, (4, 4, 8), &[(0x24, Header)]);
}

#[test]
fn fgbg_image_cut_short_by_the_end_of_the_picture_has_no_record() {
    let image = [0x40, 0x0B, 0x81, 0x00];
    assert_records(&image, (4, 2, 8), &[]);
    assert_records(&image, (4, 3, 8), &[(0x40, OneByte)]);
    let stream = [0x24, 0x40, 0x0B, 0x81, 0x00];
    assert_records(&stream, (4, 3, 8), &[(0x24, Header)]);
    assert_records(&stream, (4, 4, 8), &[(0x24, Header), (0x40, OneByte)]);
}

#[test]
fn fgbg_image_is_cut_short_alike_in_every_form() {
    let sizes = (9, 1, 8);
    // Sixteen pixels by two masks; a set-foreground image reads a pixel before them.
    for (head, pixel) in [
        (&[0x42][..], None),
        (&[0x40, 15], None),
        (&[0xF2, 16, 0], None),
        (&[0xD2], Some(7)),
        (&[0xD0, 15], Some(7)),
        (&[0xF7, 16, 0], Some(7)),
    ] {
        let mut stream = head.to_vec();
        stream.extend(pixel);
        stream.push(0x81);
        assert_records(&stream, sizes, &[]);
        stream.push(0x81);
        assert_records(&stream, sizes, &[]);
        assert_eq!(records(&stream, (16, 1, 8)).len(), 1, "{stream:02x?}");
    }
}

#[test]
fn order_past_the_end_of_the_picture_has_no_record() {
    assert_records(&[0x08], (4, 2, 8), &[(0x08, Header)]);
    assert_records(&[0x09], (4, 2, 8), &[]);
    let both = [(0x24, Header), (0x64, Header)];
    assert_records(&[0x24, 0x64, 5], (4, 2, 8), &both);
    assert_records(&[0x24, 0x65, 5], (4, 2, 8), &[(0x24, Header)]);
    // Pairs.
    assert_records(&[0xE4, 5, 6], (4, 2, 8), &[(0xE4, Header)]);
    assert_records(&[0xE5, 5, 6], (4, 2, 8), &[]);
}

#[test]
fn stream_that_goes_on_after_the_picture_has_no_more_records() {
    for more in [&[0xFE][..], &[0x01; 50], &[0xF0, 0, 0], &[0xFF]] {
        let stream = [&[0x24, 0xF1, 0x04, 0x00], more].concat();
        let expected = [(0x24, Header), (0xF1, TwoBytes)];
        assert_records(&stream, (4, 2, 8), &expected);
    }
}

#[test]
fn order_whose_length_is_missing_has_no_record() {
    for stream in [
        &[0x24, 0x00][..],
        &[0x24, 0x40],
        &[0x24, 0xD0],
        &[0x24, 0xF0],
        &[0x24, 0xF0, 0x01],
    ] {
        assert_records(stream, (4, 2, 8), &[(0x24, Header)]);
    }
    let expected = [(0x24, Header), (0xF0, TwoBytes)];
    assert_records(&[0x24, 0xF0, 0x01, 0x00], (4, 2, 8), &expected);
}

#[test]
fn length_of_two_bytes_that_is_zero_has_no_record() {
    for header in [0xF0, 0xF1, 0xF2, 0xF3, 0xF4, 0xF6, 0xF7, 0xF8] {
        let stream = [0x24, header, 0, 0, 1, 1, 1, 1];
        assert_records(&stream, (4, 2, 8), &[(0x24, Header)]);
    }
}

#[test]
fn order_whose_pixels_are_missing_has_no_record() {
    for (bpp, size) in DEPTHS {
        // A color run, a set-foreground run, a dithered run, and an image of three pixels.
        for (header, pixels) in [(0x63, 1), (0xC3, 1), (0xE3, 2), (0x83, 3)] {
            let stream = [&[0x24, header][..], &vec![5; pixels * size]].concat();
            let expected = [(0x24, Header), (header, Header)];
            assert_records(&stream, (10, 1, bpp), &expected);
            let short = &stream[..stream.len() - 1];
            assert_records(short, (10, 1, bpp), &expected[..1]);
        }
    }
}

#[test]
fn other_depths_have_no_order() {
    for bpp in [0, 7, 9, 14, 17, 32, 264, (1 << 32) + 8, usize::MAX] {
        assert_none(&[0x24, 0x01], (4, 2, bpp));
    }
}

#[test]
fn bad_sizes_have_no_order() {
    for side in [0, 8193, 1 << 32, (1 << 32) + 4, usize::MAX] {
        for sizes in [(side, 2, 8), (4, side, 8), (side, side, 8)] {
            assert_none(&[0xFE], sizes);
        }
    }
    assert_none(&[0xFE], (0, 8193, 8));
}

#[test]
fn largest_sizes_have_orders() {
    for sizes in [(8192, 1, 8), (1, 8192, 15), (8192, 8192, 24)] {
        assert_eq!(record(&[0xFE], sizes, 0).map(|order| order.0), Some(0xFE));
        assert_eq!(records(&[0xFE, 0x21], sizes).len(), 2);
    }
    // The last pixel of the last row: 1024 runs of 65,535 pixels, and one of 1,024.
    let mut stream = [0xF0, 0xFF, 0xFF].repeat(1024);
    stream.extend([0xF0, 0x00, 0x04, 0xFE]);
    assert_eq!(records(&stream, (8192, 8192, 8)).len(), 1025);
}

/// Depth or sizes are refused: there is no order, by number or in a walk.
fn assert_none(stream: &[u8], sizes: (usize, usize, usize)) {
    for n in [0, 1, usize::MAX] {
        assert_eq!(record(stream, sizes, n), None, "{sizes:?}");
    }
    assert_eq!(records(stream, sizes), [], "{sizes:?}");
}
