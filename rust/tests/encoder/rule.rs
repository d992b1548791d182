//! Which stream a picture gets, on both sides of each boundary of the rule.

use crate::{assert_stream, counting};
use nulambiro::compress;

/// An order's header and length: in the header, in one byte, or in two.
fn head(short: u8, long: u8, length: usize) -> Vec<u8> {
    match length {
        1..=31 => vec![short + length as u8],
        32..=287 => vec![short, (length - 32) as u8],
        _ => vec![long, length as u8, (length >> 8) as u8],
    }
}

fn background(length: usize) -> Vec<u8> {
    head(0x00, 0xF0, length)
}

fn color(length: usize, pixel: u8) -> Vec<u8> {
    [head(0x60, 0xF3, length), vec![pixel]].concat()
}

fn image(pixels: &[u8]) -> Vec<u8> {
    [&head(0x80, 0xF4, pixels.len()), pixels].concat()
}

/// The lengths at which the form of a length changes, and their neighbors. Rows are long enough.
const EDGES: [usize; 8] = [3, 4, 30, 31, 32, 286, 287, 288];

#[test]
fn three_equal_pixels_are_a_color_run() {
    assert_stream(&[1, 7, 7, 7, 2], 5, &[0x81, 1, 0x63, 7, 0x81, 2]);
    assert_stream(&[1, 7, 7, 2], 4, &[0x84, 1, 7, 7, 2]);
}

#[test]
fn three_pixels_as_those_above_are_a_background_run() {
    let three = [1, 2, 3, 4, 1, 2, 3, 5];
    assert_stream(&three, 4, &[0x84, 1, 2, 3, 4, 0x03, 0x81, 5]);
    let two = [1, 2, 3, 4, 1, 2, 9, 5];
    assert_stream(&two, 4, &[0x88, 1, 2, 3, 4, 1, 2, 9, 5]);
}

#[test]
fn color_runs_have_the_shortest_form() {
    for length in EDGES {
        let row = [vec![9], vec![7; length], vec![8]].concat();
        let stream = [image(&[9]), color(length, 7), image(&[8])].concat();
        assert_stream(&row, length + 2, &stream);
    }
    assert_stream(&[7; 287], 287, &[0x60, 0xFF, 7]);
    assert_stream(&[7; 288], 288, &[0xF3, 0x20, 0x01, 7]);
}

#[test]
fn images_have_the_shortest_form() {
    for length in [1, 2].into_iter().chain(EDGES) {
        let row = counting(length);
        assert_stream(&row, length, &image(&row));
    }
}

#[test]
fn background_runs_have_the_shortest_form() {
    for length in EDGES {
        let mut pixels = counting(300).repeat(2);
        for pixel in &mut pixels[300 + length..] {
            *pixel ^= 0x80;
        }
        let (above, rest) = (&pixels[..300], &pixels[300 + length..]);
        let stream = [image(above), background(length), image(rest)].concat();
        assert_stream(&pixels, 300, &stream);
    }
}

#[test]
fn first_row_has_no_background_run() {
    // Black rows: in the first one nothing stands above.
    assert_stream(&[0; 4], 4, &color(4, 0));
    assert_stream(&[0; 4], 1, &color(4, 0));
}

#[test]
fn longer_stretch_is_taken() {
    // From pixel 8 on five are equal, and four as those above.
    let color_wins = [1, 1, 1, 1, 2, 3, 4, 5, 1, 1, 1, 1, 1, 6, 7, 8];
    let before = [color(4, 1), image(&[2, 3, 4, 5])].concat();
    let stream = [&before[..], &color(5, 1), &image(&[6, 7, 8])].concat();
    assert_stream(&color_wins, 8, &stream);
    // Four are equal, and five as those above.
    let background_wins = [1, 1, 1, 1, 2, 3, 4, 5, 1, 1, 1, 1, 2, 6, 7, 8];
    let stream = [&before[..], &background(5), &image(&[6, 7, 8])].concat();
    assert_stream(&background_wins, 8, &stream);
}

#[test]
fn background_run_is_taken_on_a_tie() {
    let pixels = [1, 1, 1, 1, 2, 3, 4, 5, 1, 1, 1, 1, 6, 7, 8, 9];
    let stream = [
        color(4, 1),
        image(&[2, 3, 4, 5]),
        background(4),
        image(&[6, 7, 8, 9]),
    ];
    assert_stream(&pixels, 8, &stream.concat());
}

#[test]
fn stretches_do_not_end_at_the_end_of_a_row() {
    let pixels = [1, 2, 7, 7, 7, 3, 1, 2, 7, 7, 7, 3];
    let stream = [image(&[1, 2]), color(3, 7), image(&[3]), background(6)];
    assert_stream(&pixels, 6, &stream.concat());
    // The same in rows of three: the color run is in both rows of it.
    let stream = [image(&[1, 2]), color(3, 7), image(&[3, 1, 2]), color(3, 7)];
    assert_stream(&pixels, 3, &[&stream.concat()[..], &image(&[3])].concat());
}

#[test]
fn pixel_above_in_a_row_of_one_is_the_one_before() {
    // From pixel 1 on two are equal, and two as those above them: one stretch less than 3.
    assert_stream(&[7, 7], 1, &image(&[7, 7]));
    // Pixel 0 starts three equal ones, before row 1 begins.
    assert_stream(&[7, 7, 7], 1, &color(3, 7));
    assert_stream(
        &[6, 7, 7, 7, 7, 6],
        1,
        &[image(&[6]), color(4, 7), image(&[6])].concat(),
    );
}

#[test]
fn color_run_ends_at_65535_pixels() {
    assert_stream(&[7; 65_535], 255, &color(65_535, 7));
    // One pixel more, or two, are too few for a run.
    let stream = [color(65_535, 7), image(&[7])].concat();
    assert_stream(&[7; 65_536], 256, &stream);
    let mut pixels = [7; 65_538];
    pixels[0] = 9;
    let stream = [image(&[9]), color(65_535, 7), image(&[7, 7])].concat();
    assert_stream(&pixels, 331, &stream);
    // Of three more, all are as those above too: a tie.
    let stream = [color(65_535, 7), background(3)].concat();
    assert_stream(&[7; 65_538], 331, &stream);
}

#[test]
fn image_ends_at_65535_pixels() {
    let pixels = counting(65_535);
    assert_stream(&pixels, 255, &image(&pixels));
    let pixels = counting(65_536);
    let stream = [image(&pixels[..65_535]), image(&pixels[65_535..])].concat();
    assert_stream(&pixels, 256, &stream);
}

#[test]
fn background_run_ends_at_65535_pixels() {
    let row = counting(255);
    let stream = [image(&row), background(65_535)].concat();
    assert_stream(&row.repeat(258), 255, &stream);
}

/// 220 equal rows of 300 pixels: the background run from pixel 300 on ends at pixel 135 of a row,
/// and 165 pixels are left.
fn assert_after_background(row: &[u8], first_row: &[Vec<u8>], left: &[Vec<u8>]) {
    let stream = [first_row, &[background(65_535)], left].concat().concat();
    assert_stream(&row.repeat(220), 300, &stream);
}

#[test]
fn one_image_pixel_stands_between_background_runs() {
    let row = counting(300);
    assert_after_background(
        &row,
        &[image(&row)],
        &[image(&row[135..136]), background(164)],
    );
}

#[test]
fn two_equal_pixels_after_a_background_run_are_no_color_run() {
    let mut row = counting(300);
    row[136] = row[135];
    assert_after_background(
        &row,
        &[image(&row)],
        &[image(&row[135..136]), background(164)],
    );
}

#[test]
fn three_equal_pixels_after_a_background_run_are_a_color_run() {
    let mut row = counting(300);
    row[135..138].fill(255);
    let first_row = [image(&row[..135]), color(3, 255), image(&row[138..])];
    // Though 165 are as those above.
    assert_after_background(&row, &first_row, &[color(3, 255), background(162)]);
}

#[test]
fn no_color_run_reaches_back_into_a_background_run() {
    // Of three equal pixels the background run has the first.
    let mut row = counting(300);
    row[134..137].fill(255);
    let first_row = [image(&row[..134]), color(3, 255), image(&row[137..])];
    let left = [image(&[255]), background(164)];
    assert_after_background(&row, &first_row, &left);
}

#[test]
fn both_stretches_at_their_longest_are_a_tie() {
    // A row of another color, and then far more equal rows than a stretch measures: the color run
    // comes first, and from its end on both stretches have 65,535 pixels.
    let pixels = [vec![9; 300], vec![7; 300 * 500]].concat();
    let stream = [
        color(300, 9),
        color(65_535, 7),
        background(65_535),
        color(150_000 - 2 * 65_535, 7),
    ];
    assert_stream(&pixels, 300, &stream.concat());
}

#[test]
fn stored_bytes_are_compared() {
    // At 15 bits the top bit has no color, and counts.
    let top_bit = [0x34, 0x12, 0x34, 0x92, 0x34, 0x12];
    let stream = [&[0x83], &top_bit[..]].concat();
    assert_eq!(compress(&top_bit, 3, 1, 15), Ok(stream));
    // At 24 bits each of the three bytes does.
    for byte in 0..3 {
        let mut pixels = [1, 2, 3].repeat(3);
        assert_eq!(compress(&pixels, 3, 1, 24), Ok(vec![0x63, 1, 2, 3]));
        pixels[3 + byte] ^= 0x10;
        let stream = [&[0x83], &pixels[..]].concat();
        assert_eq!(compress(&pixels, 3, 1, 24), Ok(stream));
    }
}
