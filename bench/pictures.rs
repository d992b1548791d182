//! Streams of whole pictures, which the timed programs of the decoder share.

use crate::common::Random;

/// A stream under construction.
pub struct Writer {
    pub random: Random,
    pub stream: Vec<u8>,
    bytes_per_pixel: usize,
}

impl Writer {
    fn header(&mut self, header: u8, length: usize) {
        self.stream.push(header);
        self.stream.extend((length as u16).to_le_bytes());
    }

    fn masks(&mut self, pixels: usize) {
        self.stream.extend(self.random.bytes(pixels.div_ceil(8)));
    }

    fn pixels(&mut self, count: usize) {
        let bytes = self.random.bytes(count * self.bytes_per_pixel);
        self.stream.extend(bytes);
    }
}

/// Writes one order of at most `left` pixels; returns how many it paints. The number of the order
/// may choose its kind.
pub type Order = fn(&mut Writer, number: usize, left: usize) -> usize;

/// The longest that the two bytes after a header can say.
const LONGEST: usize = 65_535;

/// A run: the header that two bytes of length follow, and how many pixels stand after these.
pub type Run = (u8, usize);

pub const BACKGROUND: Run = (0xF0, 0);
pub const FOREGROUND: Run = (0xF1, 0);
pub const COLOR: Run = (0xF3, 1);
pub const SET_FOREGROUND: Run = (0xF6, 1);
pub const DITHERED: Run = (0xF8, 2);

/// A run as long as it can be; a black pixel where a dithered one has no room.
pub fn run(writer: &mut Writer, (header, pixels): Run, left: usize) -> usize {
    let pair = if (header, pixels) == DITHERED { 2 } else { 1 };
    if left < pair {
        writer.stream.push(0xFE);
        return 1;
    }
    let length = (left / pair).min(LONGEST);
    writer.header(header, length);
    writer.pixels(pixels);
    pair * length
}

pub fn fgbg_image(writer: &mut Writer, _: usize, left: usize) -> usize {
    let length = left.min(LONGEST);
    writer.header(0xF2, length);
    writer.masks(length);
    length
}

pub fn color_image(writer: &mut Writer, _: usize, left: usize) -> usize {
    let length = left.min(LONGEST);
    writer.header(0xF4, length);
    writer.pixels(length);
    length
}

/// Background, foreground, color and set-foreground runs, color and fg/bg images of 1 to 15 pixels.
pub fn short_order(writer: &mut Writer, _: usize, left: usize) -> usize {
    let length = writer.random.range(1, 15).min(left);
    let header = writer.random.pick(&[0x00, 0x20, 0x60, 0xC0, 0x80, 0x40]);
    if header == 0x40 {
        writer.stream.extend([header, length as u8 - 1]);
        writer.masks(length);
        return length;
    }
    writer.stream.push(header | length as u8);
    writer.pixels(match header {
        0x60 | 0xC0 => 1,
        0x80 => length,
        _ => 0,
    });
    length
}

/// A stream of a square picture: a color image for the first row, then the orders.
pub fn stream_of(order: Order, side: usize, bytes_per_pixel: usize, seed: u64) -> Vec<u8> {
    let mut writer = Writer {
        random: Random::new(seed),
        stream: Vec::new(),
        bytes_per_pixel,
    };
    let mut left = side * side - color_image(&mut writer, 0, side);
    let mut number = 0;
    while left > 0 {
        left -= order(&mut writer, number, left);
        number += 1;
    }
    writer.stream
}
