//! Makes a failing picture smaller, as long as it still fails.

use crate::case::Picture;
use crate::subject::Subject;
use std::time::{Duration, Instant};

/// How long a picture may be made smaller: each try of a large one takes part of a second.
const PATIENCE: Duration = Duration::from_secs(20);

/// A picture that fails, and what is wrong with it.
pub struct Failure {
    pixels: Vec<u8>,
    picture: Picture,
    pub what: String,
    found: Instant,
}

/// Says what is wrong with a picture, if it fails.
pub type Check<'a> = &'a mut dyn FnMut(Subject) -> Result<(), String>;

impl Failure {
    pub fn new(subject: Subject, what: String) -> Self {
        Self {
            pixels: subject.pixels.to_vec(),
            picture: subject.picture,
            what,
            found: Instant::now(),
        }
    }

    pub fn subject(&self) -> Subject<'_> {
        Subject {
            pixels: &self.pixels,
            picture: self.picture,
        }
    }

    /// Cuts rows and columns and sets pixels to zero until nothing more can go, or patience ends.
    pub fn shrink(&mut self, check: Check) {
        let Some(len) = self.picture.len() else {
            return;
        };
        if self.pixels.len() != len {
            return;
        }
        while self.cut(check) {}
        self.blacken(check);
    }

    fn is_late(&self) -> bool {
        self.found.elapsed() > PATIENCE
    }

    /// Keeps a part of the rows or of the columns.
    fn cut(&mut self, check: Check) -> bool {
        let Picture { width, height, .. } = self.picture;
        let parts = [
            (0..width, 0..height / 2),
            (0..width, height / 2..height),
            (0..width / 2, 0..height),
            (width / 2..width, 0..height),
            (0..width, 0..height - 1),
            (0..width, 1..height),
            (0..width - 1, 0..height),
            (1..width, 0..height),
        ];
        parts.into_iter().any(|(columns, rows)| {
            let picture = Picture {
                width: columns.len(),
                height: rows.len(),
                ..self.picture
            };
            if picture == self.picture || picture.len().is_none() || self.is_late() {
                return false;
            }
            let size = self.picture.shape().bytes_per_pixel;
            let row =
                |y: usize| (y * width + columns.start) * size..(y * width + columns.end) * size;
            let pixels = rows.flat_map(|y| &self.pixels[row(y)]).copied().collect();
            self.takes(pixels, picture, check)
        })
    }

    fn blacken(&mut self, check: Check) {
        for at in 0..self.pixels.len() {
            if self.pixels[at] != 0 && !self.is_late() {
                let mut pixels = self.pixels.clone();
                pixels[at] = 0;
                self.takes(pixels, self.picture, check);
            }
        }
    }

    /// Takes the changed picture if it fails too.
    fn takes(&mut self, pixels: Vec<u8>, picture: Picture, check: Check) -> bool {
        let subject = Subject {
            pixels: &pixels,
            picture,
        };
        match check(subject) {
            Ok(()) => false,
            Err(what) => {
                (self.pixels, self.picture, self.what) = (pixels, picture, what);
                true
            }
        }
    }
}
