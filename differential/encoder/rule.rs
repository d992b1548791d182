//! The encoder's rule, word for word and pixel by pixel, with nothing done to be fast.

/// Stretches are measured up to this many pixels, and every order stops there.
pub const MOST: usize = 65_535;

/// A shorter stretch is no run.
const LEAST: usize = 3;

/// The picture as one sequence of pixels, row after row.
struct Pixels<'a> {
    bytes: &'a [u8],
    bytes_per_pixel: usize,
    width: usize,
}

impl Pixels<'_> {
    fn count(&self) -> usize {
        self.bytes.len() / self.bytes_per_pixel
    }

    /// The stored bytes of a pixel, by which it is compared.
    fn pixel(&self, k: usize) -> &[u8] {
        &self.bytes[k * self.bytes_per_pixel..][..self.bytes_per_pixel]
    }

    /// How many pixels from this one on pass, one after the other.
    fn stretch(&self, at: usize, passes: impl Fn(usize) -> bool) -> usize {
        let end = self.count().min(at + MOST);
        (at..end).take_while(|k| passes(*k)).count()
    }

    /// How many pixels from this one on are equal to it.
    fn equal(&self, at: usize) -> usize {
        self.stretch(at, |k| self.pixel(k) == self.pixel(at))
    }

    /// How many pixels from this one on equal those above them: none in row 0.
    fn above(&self, at: usize) -> usize {
        self.stretch(at, |k| {
            k >= self.width && self.pixel(k) == self.pixel(k - self.width)
        })
    }
}

/// What an order is, with its number of pixels.
#[derive(Clone, Copy, PartialEq, Eq)]
enum Order {
    Background(usize),
    Color(usize),
    Image(usize),
}

/// What the rule says for the pixel at this place.
fn order_at(pixels: &Pixels, at: usize, before: Option<Order>) -> Order {
    let (equal, above) = (pixels.equal(at), pixels.above(at));
    let after_background = matches!(before, Some(Order::Background(_)));
    if above >= LEAST && above >= equal && !after_background {
        Order::Background(above)
    } else if equal >= LEAST {
        Order::Color(equal)
    } else {
        Order::Image(1)
    }
}

/// The orders of the picture. Pixels of images that follow each other are one image, up to its
/// limit.
fn orders(pixels: &Pixels) -> Vec<Order> {
    let mut orders: Vec<Order> = Vec::new();
    let mut at = 0;
    while at < pixels.count() {
        let order = order_at(pixels, at, orders.last().copied());
        match (orders.last_mut(), order) {
            (Some(Order::Image(before)), Order::Image(one)) if *before < MOST => *before += one,
            _ => orders.push(order),
        }
        at += match order {
            Order::Background(length) | Order::Color(length) | Order::Image(length) => length,
        };
    }
    orders
}

/// Writes header and length in the shortest form: the length in the header, in one byte, or in two.
fn write_head(stream: &mut Vec<u8>, short: u8, long: u8, length: usize) {
    match length {
        1..=31 => stream.push(short | length as u8),
        32..=287 => stream.extend([short, (length - 32) as u8]),
        _ => {
            stream.push(long);
            stream.extend((length as u16).to_le_bytes());
        }
    }
}

/// The stream of a picture of which these are all bytes.
pub fn encode(bytes: &[u8], width: usize, bytes_per_pixel: usize) -> Vec<u8> {
    let pixels = Pixels {
        bytes,
        bytes_per_pixel,
        width,
    };
    let mut stream = Vec::new();
    let mut at = 0;
    for order in orders(&pixels) {
        at += match order {
            Order::Background(length) => {
                write_head(&mut stream, 0x00, 0xF0, length);
                length
            }
            Order::Color(length) => {
                write_head(&mut stream, 0x60, 0xF3, length);
                stream.extend(pixels.pixel(at));
                length
            }
            Order::Image(length) => {
                write_head(&mut stream, 0x80, 0xF4, length);
                (at..at + length).for_each(|k| stream.extend(pixels.pixel(k)));
                length
            }
        };
    }
    stream
}

/// The length of the longest stream of so many pixels.
pub fn bound(pixels: usize, bytes_per_pixel: usize) -> usize {
    if bytes_per_pixel == 1 {
        return pixels + (pixels + 3) / 35 + 1;
    }
    let head = match pixels % MOST {
        0 => 0,
        1..=31 => 1,
        32..=287 => 2,
        _ => 3,
    };
    pixels * bytes_per_pixel + 3 * (pixels / MOST) + head
}
