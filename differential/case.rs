//! One input of a decoder, and what its numbers say about targets.

use std::fmt;

const MAX_SIDE: usize = 8192;

#[derive(Clone, Copy, PartialEq, Eq)]
pub struct Picture {
    pub width: usize,
    pub height: usize,
    pub bpp: usize,
}

impl Picture {
    /// Bytes of one pixel, if the depth is one that is decoded.
    pub fn bytes_per_pixel(self) -> Option<usize> {
        match self.bpp {
            8 => Some(1),
            15 | 16 => Some(2),
            24 => Some(3),
            _ => None,
        }
    }

    /// Bytes of the whole picture, if depth and sizes are good.
    pub fn len(self) -> Option<usize> {
        let good = |side: usize| (1..=MAX_SIDE).contains(&side);
        let pixel = self.bytes_per_pixel()?;
        (good(self.width) && good(self.height)).then(|| self.width * self.height * pixel)
    }

    /// A target's length: the picture's, or some length where depth or sizes are refused.
    pub fn target_len(self) -> usize {
        self.len().unwrap_or(64)
    }
}

#[derive(Clone, Copy)]
pub struct Case<'a> {
    pub stream: &'a [u8],
    pub picture: Picture,
}

/// Prints the four lines of a tile text.
impl fmt::Display for Case<'_> {
    fn fmt(&self, f: &mut fmt::Formatter<'_>) -> fmt::Result {
        writeln!(f, "width={}", self.picture.width)?;
        writeln!(f, "height={}", self.picture.height)?;
        writeln!(f, "bpp={}", self.picture.bpp)?;
        write!(f, "stream=")?;
        for byte in self.stream {
            write!(f, "{byte:02x}")?;
        }
        writeln!(f)
    }
}
