//! Runs of every length around the blocks that they are written by, in rows shorter and longer than
//! a block, held to a loop that paints pixel by pixel.

use crate::OLD;
use nulambiro::{decompress_into, picture_len};

const WIDTHS: [usize; 15] = [1, 2, 3, 5, 7, 8, 9, 15, 16, 17, 24, 47, 48, 49, 70];
const LONGEST: usize = 200;

/// The kinds of orders that paint as many pixels as their length says.
#[derive(Clone, Copy, Debug)]
enum Order {
    Background,
    Foreground,
    Color,
    Image,
    SetForeground,
    Masks,
    SetForegroundMasks,
    Dithered,
}

const ORDERS: [Order; 8] = [
    Order::Background,
    Order::Foreground,
    Order::Color,
    Order::Image,
    Order::SetForeground,
    Order::Masks,
    Order::SetForegroundMasks,
    Order::Dithered,
];

/// Bytes that differ from their neighbors.
fn bytes(count: usize, seed: usize) -> Vec<u8> {
    (0..count).map(|i| (i * 37 + seed * 11 + 5) as u8).collect()
}

/// The order's header with a length of two bytes, and its operands.
fn stream_of(order: Order, n: usize, d: usize) -> Vec<u8> {
    let masks = n.div_ceil(8);
    let (header, operands) = match order {
        Order::Background => (0xF0, 0),
        Order::Foreground => (0xF1, 0),
        Order::Masks => (0xF2, masks),
        Order::Color => (0xF3, d),
        Order::Image => (0xF4, n * d),
        Order::SetForeground => (0xF6, d),
        Order::SetForegroundMasks => (0xF7, d + masks),
        Order::Dithered => (0xF8, 2 * d),
    };
    let length = if let Order::Dithered = order {
        n / 2
    } else {
        n
    };
    let mut stream = vec![header, length as u8, (length >> 8) as u8];
    stream.extend(bytes(operands, n));
    stream
}

/// Appends one pixel: a color, exclusive-or the pixel `back` bytes before it where it looks at one.
fn push(picture: &mut Vec<u8>, back: Option<usize>, color: &[u8]) {
    for byte in color {
        let above = back.map_or(0, |back| picture[picture.len() - back]);
        picture.push(above ^ byte);
    }
}

/// Paints the order pixel by pixel; in the first row there is no row to look back at.
fn paint(picture: &mut Vec<u8>, order: Order, n: usize, row: Option<usize>, white: &[u8]) {
    let d = white.len();
    let stream = stream_of(order, n, d);
    let operands = &stream[3..];
    let none = vec![0; d];
    for i in 0..n {
        let set = |masks: &[u8]| masks[i / 8] >> (i % 8) & 1 == 1;
        let (back, color) = match order {
            Order::Background => (row, &none[..]),
            Order::Foreground => (row, white),
            Order::Color => (None, operands),
            Order::Image => (None, &operands[i * d..][..d]),
            Order::SetForeground => (row, operands),
            Order::Masks if set(operands) => (row, white),
            Order::SetForegroundMasks if set(&operands[d..]) => (row, &operands[..d]),
            Order::Masks | Order::SetForegroundMasks => (row, &none[..]),
            Order::Dithered => (None, &operands[i % 2 * d..][..d]),
        };
        push(picture, back, color);
    }
}

/// Decodes each order at each length, after `rows` rows of an image, and compares.
fn assert_written(width: usize, rows: usize) {
    let height = rows + LONGEST.div_ceil(width) + 1;
    for (bpp, white) in [
        (8, &[0xFF][..]),
        (15, &[0xFF, 0x7F]),
        (16, &[0xFF, 0xFF]),
        (24, &[0xFF, 0xFF, 0xFF]),
    ] {
        let d = white.len();
        let row = (rows > 0).then_some(width * d);
        let before = if rows > 0 {
            stream_of(Order::Image, rows * width, d)
        } else {
            vec![]
        };
        for order in ORDERS {
            for n in (1..=LONGEST).filter(|n| !matches!(order, Order::Dithered) || n % 2 == 0) {
                let mut stream = before.clone();
                stream.extend(stream_of(order, n, d));
                let mut expected = before.get(3..).unwrap_or_default().to_vec();
                paint(&mut expected, order, n, row, white);
                let mut target = vec![OLD; picture_len(width, height, bpp).expect("a good size")];
                expected.resize(target.len(), OLD);
                let report = decompress_into(&stream, &mut target, width, height, bpp);
                assert!(report.outcome.is_ok());
                assert_eq!(report.pixels, rows * width + n);
                assert!(
                    target == expected,
                    "{order:?} of {n} pixels, {bpp} bits, rows of {width}"
                );
            }
        }
    }
}

#[test]
fn runs_of_every_length_are_written_in_later_rows() {
    for width in WIDTHS {
        assert_written(width, 1);
    }
}

#[test]
fn runs_of_every_length_are_written_in_the_first_row() {
    assert_written(LONGEST + 1, 0);
}
