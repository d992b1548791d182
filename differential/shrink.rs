//! Makes a failing case smaller, as long as it still fails.

use crate::case::{Case, Picture};
use std::time::{Duration, Instant};

/// How long a case may be made smaller: each try of a large picture takes part of a second.
const PATIENCE: Duration = Duration::from_secs(20);

/// A case that fails, and what is wrong with it.
pub struct Failure {
    stream: Vec<u8>,
    picture: Picture,
    pub what: String,
    found: Instant,
}

/// Says what is wrong with a case, if it fails.
pub type Check<'a> = &'a mut dyn FnMut(Case) -> Result<(), String>;

impl Failure {
    pub fn new(case: Case, what: String) -> Self {
        Self {
            stream: case.stream.to_vec(),
            picture: case.picture,
            what,
            found: Instant::now(),
        }
    }

    pub fn case(&self) -> Case<'_> {
        Case {
            stream: &self.stream,
            picture: self.picture,
        }
    }

    /// Lowers the sides and cuts bytes out of the stream until nothing more can go, or patience
    /// ends.
    pub fn shrink(&mut self, check: Check) {
        while self.lower_sides(check) || self.cut_bytes(check) {}
    }

    fn is_late(&self) -> bool {
        self.found.elapsed() > PATIENCE
    }

    fn cut_bytes(&mut self, check: Check) -> bool {
        let before = self.stream.len();
        let mut size = before;
        while size > 0 {
            let mut start = 0;
            while start + size <= self.stream.len() && !self.is_late() {
                let mut stream = self.stream.clone();
                stream.drain(start..start + size);
                // Where a part was cut, the next one has moved to its place.
                if !self.takes(stream, self.picture, check) {
                    start += size;
                }
            }
            size /= 2;
        }
        self.stream.len() < before
    }

    fn lower_sides(&mut self, check: Check) -> bool {
        let old = self.picture;
        let Picture { width, height, bpp } = old;
        let smaller = [
            (width / 2, height),
            (width, height / 2),
            (width.saturating_sub(1), height),
            (width, height.saturating_sub(1)),
        ];
        smaller.into_iter().any(|(width, height)| {
            let picture = Picture { width, height, bpp };
            !self.is_late() && picture != old && self.takes(self.stream.clone(), picture, check)
        })
    }

    /// Takes the changed case if it fails too.
    fn takes(&mut self, stream: Vec<u8>, picture: Picture, check: Check) -> bool {
        let case = Case {
            stream: &stream,
            picture,
        };
        match check(case) {
            Ok(()) => false,
            Err(what) => {
                (self.stream, self.picture, self.what) = (stream, picture, what);
                true
            }
        }
    }
}
