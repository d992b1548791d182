//! Where the length stands, for every header byte.

use crate::{assert_records, record, DEPTHS};
use nulambiro::LengthPlace;

/// The place by the specification's list of headers; none where the header is no order.
pub fn place(header: u8) -> Option<LengthPlace> {
    let low_bits = match header {
        // Background, foreground, fg/bg image, color run, color image.
        0x00..=0x9F => header & 0x1F,
        // Set-foreground run, set-foreground fg/bg image, dithered run.
        0xC0..=0xEF => header & 0x0F,
        0xF0 | 0xF1 | 0xF2 | 0xF3 | 0xF4 | 0xF6 | 0xF7 | 0xF8 => {
            return Some(LengthPlace::TwoBytes);
        }
        0xF9 | 0xFA | 0xFD | 0xFE => return Some(LengthPlace::None),
        0xA0..=0xBF | 0xF5 | 0xFB | 0xFC | 0xFF => return None,
    };
    Some(match low_bits {
        0 => LengthPlace::OneByte,
        _ => LengthPlace::Header,
    })
}

#[test]
fn every_header_has_its_place() {
    for (bpp, _) in DEPTHS {
        for header in 0..=u8::MAX {
            // Enough bytes for every order, which has at most 248 pixels: 31 masks of 8.
            let stream = [&[header, 1, 0][..], &[0; 100]].concat();
            let expected = place(header).map(|place| (header, place));
            let found = record(&stream, (300, 1, bpp), 0);
            assert_eq!(found, expected, "{header:02x}, {bpp} bits");
        }
    }
}

#[test]
fn place_does_not_follow_from_the_length() {
    // Foreground runs of 31 pixels, which the header has room for, and of 32.
    let sizes = (300, 1, 8);
    assert_records(&[0x3F], sizes, &[(0x3F, LengthPlace::Header)]);
    assert_records(&[0xF1, 31, 0], sizes, &[(0xF1, LengthPlace::TwoBytes)]);
    assert_records(&[0x20, 0], sizes, &[(0x20, LengthPlace::OneByte)]);
    assert_records(&[0xF1, 32, 0], sizes, &[(0xF1, LengthPlace::TwoBytes)]);
    // Fg/bg images of 8 pixels in all three forms.
    assert_records(&[0x41, 0xAA], sizes, &[(0x41, LengthPlace::Header)]);
    assert_records(&[0x40, 7, 0xAA], sizes, &[(0x40, LengthPlace::OneByte)]);
    let two_bytes = [0xF2, 8, 0, 0xAA];
    assert_records(&two_bytes, sizes, &[(0xF2, LengthPlace::TwoBytes)]);
}

#[test]
fn least_and_greatest_lengths_of_a_place_have_it() {
    let sizes = (8192, 20, 8);
    for header in [0x00, 0x20, 0x60, 0xC0, 0xE0] {
        for byte in [0, 1, 254, 255] {
            // Two pixels follow, which the last three orders read.
            let found = record(&[header, byte, 5, 6], sizes, 0);
            assert_eq!(found, Some((header, LengthPlace::OneByte)));
        }
    }
    for header in [0xF0, 0xF1, 0xF3, 0xF6, 0xF8] {
        for [low, high] in [[1, 0], [0, 1], [0xFF, 0], [0xFF, 0xFF]] {
            let found = record(&[header, low, high, 5, 6], sizes, 0);
            assert_eq!(found, Some((header, LengthPlace::TwoBytes)));
        }
    }
}

#[test]
fn orders_of_every_kind_and_place_follow_each_other() {
    let image = [&[0x80, 0][..], &[5; 32]].concat();
    let orders = [
        &[0x01][..],
        &[0x00, 0],
        &[0xF0, 1, 0],
        &[0x21],
        &[0x20, 0],
        &[0xF1, 1, 0],
        &[0x41, 0x0F],
        &[0x40, 0, 0x01],
        &[0xF2, 1, 0, 0x01],
        &[0x61, 5],
        &[0x60, 0, 5],
        &[0xF3, 1, 0, 5],
        &[0x81, 5],
        &image,
        &[0xF4, 1, 0, 5],
        &[0xC1, 5],
        &[0xC0, 0, 5],
        &[0xF6, 1, 0, 5],
        &[0xD1, 5, 0x0F],
        &[0xD0, 0, 5, 0x01],
        &[0xF7, 1, 0, 5, 0x01],
        &[0xE1, 5, 6],
        &[0xE0, 0, 5, 6],
        &[0xF8, 1, 0, 5, 6],
        &[0xF9],
        &[0xFA],
        &[0xFD],
        &[0xFE],
    ];
    let expected = orders.map(|order| (order[0], place(order[0]).expect("an order")));
    assert_records(&orders.concat(), (20, 20, 8), &expected);
}

#[test]
fn header_that_is_no_order_ends_the_records() {
    for header in (0..=u8::MAX).filter(|header| place(*header).is_none()) {
        let stream = [0x24, header, 0x01];
        assert_records(&stream, (4, 2, 8), &[(0x24, LengthPlace::Header)]);
        assert_records(&[header], (4, 2, 8), &[]);
    }
}

#[test]
fn places_have_names() {
    for (place, name) in [
        (LengthPlace::None, "none"),
        (LengthPlace::Header, "header"),
        (LengthPlace::OneByte, "one byte"),
        (LengthPlace::TwoBytes, "two bytes"),
    ] {
        assert_eq!(place.to_string(), name);
        assert_eq!(format!("{place:>10}"), format!("{name:>10}"));
    }
}
