//! One input of the encoder.

use crate::case::Picture;
use crate::pictures::Shape;
use std::fmt;

#[derive(Clone, Copy)]
pub struct Subject<'a> {
    pub pixels: &'a [u8],
    pub picture: Picture,
}

impl Picture {
    /// The shape of a picture whose depth is one that is encoded.
    pub fn shape(self) -> Shape {
        Shape {
            width: self.width,
            height: self.height,
            bytes_per_pixel: self.bytes_per_pixel().expect("a depth that is encoded"),
        }
    }
}

/// Prints the lines of a case in `tests/requests`, without its output.
impl fmt::Display for Subject<'_> {
    fn fmt(&self, f: &mut fmt::Formatter<'_>) -> fmt::Result {
        writeln!(f, "width={}", self.picture.width)?;
        writeln!(f, "height={}", self.picture.height)?;
        writeln!(f, "bpp={}", self.picture.bpp)?;
        write!(f, "pixels=")?;
        for byte in self.pixels {
            write!(f, "{byte:02x}")?;
        }
        writeln!(f)
    }
}
