//! Pictures of every kind, as stored bytes. `bench` has them too.

// Each program uses a part.
#![allow(dead_code)]

use crate::random::Random;

/// A picture's sides and the bytes of its pixels.
#[derive(Clone, Copy)]
pub struct Shape {
    pub width: usize,
    pub height: usize,
    pub bytes_per_pixel: usize,
}

impl Shape {
    pub fn pixels(self) -> usize {
        self.width * self.height
    }

    pub fn len(self) -> usize {
        self.pixels() * self.bytes_per_pixel
    }
}

/// Stored bytes of a pixel; those that a depth does not have are left out.
pub type Color = [u8; 3];

/// Pixels by their number.
pub fn painted(shape: Shape, mut color: impl FnMut(usize) -> Color) -> Vec<u8> {
    let mut bytes = Vec::with_capacity(shape.len());
    for k in 0..shape.pixels() {
        bytes.extend_from_slice(&color(k)[..shape.bytes_per_pixel]);
    }
    bytes
}

pub fn any_color(random: &mut Random) -> Color {
    [random.byte(), random.byte(), random.byte()]
}

pub fn noise(random: &mut Random, shape: Shape) -> Vec<u8> {
    random.bytes(shape.len())
}

pub fn one_color(random: &mut Random, shape: Shape) -> Vec<u8> {
    let color = any_color(random);
    painted(shape, |_| color)
}

/// Columns of a few pixels, alike in all rows.
pub fn columns(random: &mut Random, shape: Shape) -> Vec<u8> {
    let (few, wide) = (few_colors(random), random.range(1, 5));
    painted(shape, |k| few[k % shape.width / wide % few.len()])
}

/// Rows of one color each, or a few alike.
pub fn rows(random: &mut Random, shape: Shape) -> Vec<u8> {
    let (few, high) = (few_colors(random), random.range(1, 3));
    painted(shape, |k| few[k / shape.width / high % few.len()])
}

/// Smooth shades with the noise of a camera.
pub fn photo(random: &mut Random, shape: Shape) -> Vec<u8> {
    let (across, down) = (random.range(3, 22), random.range(3, 22));
    let shade = |at: usize| {
        let at = at % 512;
        at.min(511 - at)
    };
    painted(shape, |k| {
        let (x, y) = (k % shape.width, k / shape.width);
        let noise = random.below(17);
        let red = (shade(x * across + y) + noise).min(255);
        let green = (shade(y * down + x / 2) + noise).min(255);
        let blue = ((red + green) / 2 + random.below(9)).min(255);
        match shape.bytes_per_pixel {
            1 => [(red & 0xE0 | green >> 3 & 0x1C | blue >> 6) as u8, 0, 0],
            2 => {
                let word = (red >> 3 << 11 | green >> 2 << 5 | blue >> 3) as u16;
                [word as u8, (word >> 8) as u8, 0]
            }
            _ => [blue, green, red].map(|channel| channel as u8),
        }
    })
}

/// Two to five colors, of which some differ in one bit of one byte alone.
fn few_colors(random: &mut Random) -> Vec<Color> {
    let first = any_color(random);
    let mut few = vec![first];
    for _ in 0..random.range(1, 4) {
        let mut color = first;
        color[random.below(3)] ^= 1 << random.below(8);
        few.push(if random.one_in(2) {
            color
        } else {
            any_color(random)
        });
    }
    few
}

/// A floor plan: rooms with walls, some of them hatched, dithered or shaded, with labels.
pub fn plan(random: &mut Random, shape: Shape) -> Vec<u8> {
    // By index into a list of colors: the largest pictures have to fit into memory.
    let colors: Vec<Color> = (0..256).map(|_| any_color(random)).collect();
    let mut canvas = Canvas {
        width: shape.width,
        indices: vec![0; shape.pixels()],
    };
    let all = Room {
        left: 0,
        top: 0,
        width: shape.width,
        height: shape.height,
    };
    canvas.split(random, all);
    painted(shape, |k| colors[usize::from(canvas.indices[k])])
}

#[derive(Clone, Copy)]
struct Room {
    left: usize,
    top: usize,
    width: usize,
    height: usize,
}

struct Canvas {
    width: usize,
    indices: Vec<u8>,
}

const WALL: u8 = 1;
const TEXT: u8 = 2;
/// Colors of rooms begin here; the shades are the last ones.
const ROOMS: usize = 3;
const SHADES: usize = 128;

impl Canvas {
    fn fill(&mut self, room: Room, color: impl Fn(usize, usize) -> u8) {
        for y in room.top..room.top + room.height {
            for x in room.left..room.left + room.width {
                self.indices[y * self.width + x] = color(x, y);
            }
        }
    }

    /// Cuts a large room into two, and paints a small one; some are left large.
    fn split(&mut self, random: &mut Random, room: Room) {
        let side = room.width.max(room.height);
        let large = side < 600 && random.one_in(10);
        if !large && side > 2 * random.range(24, 64) {
            let (first, second) = room.cut(random);
            self.split(random, first);
            self.split(random, second);
        } else {
            self.paint(random, room);
        }
    }

    fn paint(&mut self, random: &mut Random, room: Room) {
        let color = random.range(ROOMS, ROOMS + 10) as u8;
        let other = random.range(ROOMS, ROOMS + 10) as u8;
        let period = random.range(4, 9);
        let shade = |step: usize, of: usize| (SHADES + step * 127 / of) as u8;
        match random.below(12) {
            0 => self.fill(
                room,
                |x, y| {
                    if (x + y) % period == 0 {
                        other
                    } else {
                        color
                    }
                },
            ),
            1 => self.fill(room, |x, y| if (x ^ y) & 1 == 0 { color } else { other }),
            2 => self.fill(room, |x, _| if x & 1 == 0 { color } else { other }),
            3 => self.fill(room, |x, _| shade(x - room.left, room.width)),
            4 => self.fill(room, |_, y| shade(y - room.top, room.height)),
            _ => self.fill(room, |_, _| color),
        }
        let thick = random.range(1, 3);
        self.fill(room.part(room.width, thick), |_, _| WALL);
        self.fill(room.part(thick, room.height), |_, _| WALL);
        if room.width > 30 && room.height > 16 {
            self.label(random, room);
        }
    }

    /// Letters of three by five pixels by chance.
    fn label(&mut self, random: &mut Random, room: Room) {
        for letter in 0..random.range(2, 5) {
            let dots = random.below(1 << 15);
            for dot in (0..15).filter(|dot| dots >> dot & 1 == 1) {
                let (x, y) = (4 + 4 * letter + dot % 3, 4 + dot / 3);
                self.indices[(room.top + y) * self.width + room.left + x] = TEXT;
            }
        }
    }
}

impl Room {
    fn cut(self, random: &mut Random) -> (Self, Self) {
        let (mut first, mut second) = (self, self);
        if self.width >= self.height {
            first.width = random.range(self.width / 3, 2 * self.width / 3);
            second.left += first.width;
            second.width -= first.width;
        } else {
            first.height = random.range(self.height / 3, 2 * self.height / 3);
            second.top += first.height;
            second.height -= first.height;
        }
        (first, second)
    }

    /// The part at the left and the top, of at most this size.
    fn part(self, width: usize, height: usize) -> Self {
        Self {
            width: width.min(self.width),
            height: height.min(self.height),
            ..self
        }
    }
}

/// Stretches one after the other, of these lengths: equal pixels, pixels as those above, and pixels
/// that are neither. Short lengths make the small pictures in which all parts of the rule meet.
pub fn stretches(random: &mut Random, shape: Shape, lengths: &[usize]) -> Vec<u8> {
    let few = few_colors(random);
    let mut pixels: Vec<Color> = Vec::with_capacity(shape.pixels());
    while pixels.len() < shape.pixels() {
        let left = shape.pixels() - pixels.len();
        let length = random.pick(lengths).min(left);
        let kind = random.below(4);
        let color = random.pick(&few);
        for _ in 0..length {
            let before = pixels.last().copied();
            let above = pixels.len().checked_sub(shape.width).map(|k| pixels[k]);
            pixels.push(match (kind, above) {
                (0, _) => color,
                (1, Some(above)) => above,
                (2, _) => random.pick(&few),
                _ => other_than(random, before, above),
            });
        }
    }
    painted(shape, |k| pixels[k])
}

/// A color that neither the pixel before nor the one above has, in its first byte already.
fn other_than(random: &mut Random, before: Option<Color>, above: Option<Color>) -> Color {
    loop {
        let color = any_color(random);
        if [before, above].iter().flatten().all(|c| c[0] != color[0]) {
            return color;
        }
    }
}

/// A row of stretches, and all others as it: background runs of the greatest length that meet each
/// other wherever in the row they end.
pub fn copies(random: &mut Random, shape: Shape) -> Vec<u8> {
    let row = Shape { height: 1, ..shape };
    stretches(random, row, &[1, 1, 2, 2, 3, 3, 4, 8]).repeat(shape.height)
}

/// A number that does not divide the width: of the two one does not, as a width is below their
/// product.
fn period(shape: Shape) -> usize {
    if shape.width % 251 == 0 {
        241
    } else {
        251
    }
}

/// Pixels that differ from their neighbors and from those above.
pub fn all_different(shape: Shape) -> Vec<u8> {
    let period = period(shape);
    painted(shape, |k| [(k % period) as u8, 7, 9])
}

/// Color runs of three pixels, the shortest there are.
pub fn threes(shape: Shape) -> Vec<u8> {
    let period = period(shape);
    painted(shape, |k| [(k / 3 % period) as u8, 7, 9])
}

/// Two equal pixels, which are as those above too, and one that is neither: images alone, in which
/// as much as can be is compared for nothing.
pub fn twos(shape: Shape) -> Vec<u8> {
    painted(shape, |k| {
        let (column, row) = (k % shape.width, k / shape.width);
        let color = if column % 3 == 2 {
            200 + row % 2
        } else {
            column / 3 % 100
        };
        [color as u8, 7, 9]
    })
}

/// A picture with the longest stream of its size. Pixels of two and three bytes all stand in
/// images. Of those of one byte 32 are an image, whose head has two bytes, and three a color run,
/// of two bytes.
pub fn longest_stream(shape: Shape) -> Vec<u8> {
    let mut bytes = all_different(shape);
    if shape.bytes_per_pixel == 1 {
        for at in (32..shape.pixels().saturating_sub(3)).step_by(35) {
            let color = bytes[at];
            bytes[at..at + 3].fill(color);
        }
    }
    bytes
}

/// Rows in pairs. In the second of a pair as many pixels as the row has, but one, are equal, and
/// all are as those above: the equal ones are measured to their end, and lose by one.
pub fn lose_by_one(shape: Shape) -> Vec<u8> {
    painted(shape, |k| {
        let (column, pair) = (k % shape.width, k / shape.width / 2);
        let color = 2 * (pair % 100) as u8;
        [color + u8::from(column + 1 == shape.width), 7, 9]
    })
}
