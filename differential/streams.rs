//! Streams by chance: orders of every form, with lengths near the places where something ends.

use crate::case::Picture;
use crate::random::Random;

/// The depths that are decoded.
pub const DEPTHS: [usize; 4] = [8, 15, 16, 24];

/// What an order has after its length.
#[derive(Clone, Copy, PartialEq, Eq)]
enum Tail {
    Nothing,
    Masks,
    Pixels,
}

/// One kind of orders with a length: how it is written, and what follows.
#[derive(Clone, Copy)]
struct Kind {
    /// The header with a length of 0.
    header: u8,
    /// The largest number in the header, and how many pixels it stands for.
    most: usize,
    unit: usize,
    /// The length that a following byte of 0 stands for.
    offset: usize,
    /// The header that is followed by a length of two bytes.
    long: u8,
    /// Pixels between the length and the tail.
    pixels: usize,
    tail: Tail,
}

const fn kind(header: u8, most: usize, long: u8, pixels: usize, tail: Tail) -> Kind {
    let masks = matches!(tail, Tail::Masks);
    Kind {
        header,
        most,
        unit: if masks { 8 } else { 1 },
        offset: if masks { 1 } else { most + 1 },
        long,
        pixels,
        tail,
    }
}

impl Kind {
    /// A dithered run's length counts pairs.
    fn pixels_per_length(self) -> usize {
        if self.header == DITHERED.header {
            2
        } else {
            1
        }
    }
}

/// Where a length stands: in the header, in one byte after it, or in two.
#[derive(Clone, Copy)]
enum Place {
    Header,
    Byte,
    Two,
}

const BACKGROUND: Kind = kind(0x00, 31, 0xF0, 0, Tail::Nothing);
const DITHERED: Kind = kind(0xE0, 15, 0xF8, 2, Tail::Nothing);
const KINDS: [Kind; 8] = [
    BACKGROUND,
    kind(0x20, 31, 0xF1, 0, Tail::Nothing),
    kind(0x40, 31, 0xF2, 0, Tail::Masks),
    kind(0x60, 31, 0xF3, 1, Tail::Nothing),
    kind(0x80, 31, 0xF4, 0, Tail::Pixels),
    kind(0xC0, 15, 0xF6, 1, Tail::Nothing),
    kind(0xD0, 15, 0xF7, 1, Tail::Masks),
    DITHERED,
];
const WITHOUT_LENGTH: [u8; 4] = [0xF9, 0xFA, 0xFD, 0xFE];
const NO_ORDERS: [u8; 7] = [0xA0, 0xAB, 0xBF, 0xF5, 0xFB, 0xFC, 0xFF];
const EDGES: [usize; 18] = [
    1, 7, 8, 9, 15, 16, 17, 31, 32, 33, 248, 255, 256, 257, 271, 272, 287, 288,
];

/// A stream under construction; `painted` is where its next order starts.
struct Writer<'a> {
    random: &'a mut Random,
    width: usize,
    pixels: usize,
    bytes_per_pixel: usize,
    painted: usize,
    stream: Vec<u8>,
}

impl<'a> Writer<'a> {
    /// Starts a stream for a picture of a depth that is decoded.
    fn new(random: &'a mut Random, picture: Picture) -> Self {
        Self {
            random,
            width: picture.width,
            pixels: picture.width * picture.height,
            bytes_per_pixel: picture.bytes_per_pixel().expect("a depth that is decoded"),
            painted: 0,
            stream: Vec::new(),
        }
    }

    fn order(&mut self) {
        match self.random.below(100) {
            0 => self.stream.push(self.random.pick(&NO_ORDERS)),
            1 => {
                let long = self.random.pick(&KINDS).long;
                self.stream.extend_from_slice(&[long, 0, 0]);
            }
            2..=15 => {
                let header = self.random.pick(&WITHOUT_LENGTH);
                self.stream.push(header);
                self.painted += if header < 0xFD { 8 } else { 1 };
            }
            16..=35 => self.order_of(BACKGROUND),
            _ => {
                let kind = self.random.pick(&KINDS);
                self.order_of(kind);
            }
        }
    }

    fn order_of(&mut self, kind: Kind) {
        let mut wanted = self.wanted() / kind.pixels_per_length();
        // Long tails are rare, to keep streams short.
        if kind.tail != Tail::Nothing && !self.random.one_in(50) {
            wanted = wanted.min(300);
        }
        let place = self.random.pick(&[
            Place::Header,
            Place::Byte,
            Place::Header,
            Place::Byte,
            Place::Two,
        ]);
        self.write(kind, place, wanted);
    }

    /// Writes an order whose length is the one wanted, or the nearest that can stand there.
    fn write(&mut self, kind: Kind, place: Place, wanted: usize) {
        let length = match place {
            Place::Header => {
                let number = (wanted / kind.unit).clamp(1, kind.most);
                self.stream.push(kind.header | number as u8);
                number * kind.unit
            }
            Place::Byte => {
                let length = wanted.clamp(kind.offset, kind.offset + 255);
                self.stream.push(kind.header);
                self.stream.push((length - kind.offset) as u8);
                length
            }
            Place::Two => {
                let length = wanted.clamp(1, 65_535);
                self.stream.push(kind.long);
                self.stream
                    .extend_from_slice(&(length as u16).to_le_bytes());
                length
            }
        };
        self.painted += kind.pixels_per_length() * length;
        self.color(kind.pixels);
        match kind.tail {
            Tail::Nothing => {}
            Tail::Pixels => self.color(length),
            Tail::Masks => {
                let masks = self.random.bytes(length.div_ceil(8));
                self.stream.extend(masks);
            }
        }
    }

    /// A number of pixels, often one at which the row or the picture ends.
    fn wanted(&mut self) -> usize {
        let row = self.width - self.painted % self.width;
        let left = self.pixels.saturating_sub(self.painted).max(1);
        match self.random.below(20) {
            0 | 1 => row,
            2 | 3 => row + self.random.below(3) - usize::from(row > 1),
            4 => left,
            5 => left + self.random.below(3) - usize::from(left > 1),
            6 => self.random.range(1, left),
            7 | 8 => self.random.pick(&EDGES),
            9..=11 => self.random.range(1, self.width),
            _ => self.random.range(1, 8),
        }
    }

    fn color(&mut self, pixels: usize) {
        for _ in 0..pixels * self.bytes_per_pixel {
            let byte = match self.random.below(4) {
                0 => 0x00,
                1 => 0xFF,
                _ => self.random.byte(),
            };
            self.stream.push(byte);
        }
    }
}

/// An order alone, and how many pixels it paints.
pub struct Order {
    pub bytes: Vec<u8>,
    pub pixels: usize,
}

/// Every kind of orders in every form of its length, with every length up to 287 and some longer
/// ones, the orders without a length, and what is no order: lengths of 0 and other headers.
pub fn forms(random: &mut Random, picture: Picture) -> Vec<Order> {
    let mut orders = Vec::new();
    let mut add = |bytes, pixels| orders.push(Order { bytes, pixels });
    for kind in KINDS {
        let header = (1..=kind.most).map(|number| (Place::Header, number * kind.unit));
        let byte = (kind.offset..kind.offset + 256).map(|length| (Place::Byte, length));
        let two = (1..=9).chain(EDGES).chain([300, 511, 512, 513, 1000]);
        let two = two.map(|length| (Place::Two, length));
        for (place, length) in header.chain(byte).chain(two) {
            let mut writer = Writer::new(random, picture);
            writer.write(kind, place, length);
            add(writer.stream, writer.painted);
        }
        add(vec![kind.long, 0, 0], 0);
    }
    for (header, pixels) in WITHOUT_LENGTH.into_iter().zip([8, 8, 1, 1]) {
        add(vec![header], pixels);
    }
    for header in NO_ORDERS {
        add(vec![header], 0);
    }
    orders
}

/// A stream that paints the whole picture with all kinds of orders, as long as they can be; those
/// with a tail are of a few hundred pixels, to keep the stream short.
pub fn filling(random: &mut Random, picture: Picture) -> Vec<u8> {
    let mut writer = Writer::new(random, picture);
    for kind in KINDS.into_iter().cycle() {
        let left = writer.pixels - writer.painted;
        if left == 0 {
            break;
        }
        match left / kind.pixels_per_length() {
            0 => {}
            most if kind.tail == Tail::Nothing || most < 300 => {
                writer.write(kind, Place::Two, most);
            }
            most => writer.write(kind, Place::Byte, most),
        }
    }
    writer.stream
}

/// Width, height and depth of a picture, mostly of a few hundred pixels.
pub fn picture(random: &mut Random) -> Picture {
    let (width, height) = match random.below(100) {
        0..=59 => (random.range(1, 20), random.range(1, 12)),
        60..=91 => (random.range(1, 70), random.range(1, 40)),
        92..=97 => (
            random.pick(&[255, 256, 257, 1024, 8191, 8192]),
            random.range(1, 2),
        ),
        98 => (random.range(1, 3), random.pick(&[1024, 8191, 8192])),
        _ => random.pick(&[(8192, 9), (300, 300), (64, 2048), (9, 8192)]),
    };
    let bpp = random.pick(&DEPTHS);
    Picture { width, height, bpp }
}

/// A stream for this picture, mostly of valid orders.
pub fn orders(random: &mut Random, picture: Picture) -> Vec<u8> {
    let count = random.range(1, 20);
    let mut writer = Writer::new(random, picture);
    for _ in 0..count {
        // Little is to be seen after the end, so few streams go on.
        if writer.painted >= writer.pixels && !writer.random.one_in(4) {
            break;
        }
        let (length, painted) = (writer.stream.len(), writer.painted);
        writer.order();
        // An order past the end is refused: most are taken back, so that others can follow.
        if writer.painted > writer.pixels && !writer.random.one_in(6) {
            writer.stream.truncate(length);
            writer.painted = painted;
        }
    }
    writer.stream
}

/// Changes a stream in one to three places.
pub fn damage(random: &mut Random, stream: &mut Vec<u8>) {
    for _ in 0..random.range(1, 3) {
        if stream.is_empty() {
            stream.push(random.byte());
        }
        let at = random.below(stream.len());
        match random.below(5) {
            0 => stream.truncate(at),
            1 => stream[at] ^= 1 << random.below(8),
            2 => stream[at] = random.byte(),
            3 => stream.insert(at, random.byte()),
            _ => {
                stream.remove(at);
            }
        }
    }
}

/// Bytes that need not be orders.
pub fn bytes(random: &mut Random) -> Vec<u8> {
    let count = random.range(3, 24);
    random.bytes(count)
}
