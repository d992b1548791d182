//! Holds the library's encoder to the plain rule, and the streams to the decoders.

use crate::case::{Case, Picture};
use crate::lent::Lent;
use crate::library::{self, refused, written, Report};
use crate::oracle::{self, OLD};
use crate::rule;
use crate::same::{same, same_bytes, Checked};
use crate::subject::Subject;
use nulambiro::{compress_bound, decompress_into};

/// What is looked at beside the stream in an output of the bound's length.
#[derive(Clone, Copy, PartialEq, Eq)]
pub enum Effort {
    /// Nothing more.
    Basic,
    /// Outputs and pixel buffers of other lengths.
    Lengths,
}

/// Compares the encoders; the buffers are kept from picture to picture.
#[derive(Default)]
pub struct Checker {
    lent: Lent,
    target: Vec<u8>,
    more: Vec<u8>,
}

impl Checker {
    /// A good size and depth with all bytes of the picture.
    pub fn check(&mut self, subject: Subject, effort: Effort) -> Checked {
        let Picture { width, height, bpp } = subject.picture;
        let shape = subject.picture.shape();
        let stream = rule::encode(subject.pixels, width, shape.bytes_per_pixel);
        let bound = compress_bound(width, height, bpp);
        let by_rule = rule::bound(shape.pixels(), shape.bytes_per_pixel);
        same("bound", by_rule, bound)?;
        same("stream within the bound", true, stream.len() <= bound)?;
        self.writes(subject, &stream, bound, OLD[0])?;
        self.comes_back(subject, &stream)?;
        if effort == Effort::Basic {
            return Ok(());
        }
        self.writes(subject, &stream, stream.len(), OLD[1])?;
        self.writes(subject, &stream, bound + 61, OLD[1])?;
        for room in [0, stream.len() / 2, stream.len() - 1] {
            self.untouched(subject, room, refused(14, 0, 0))?;
        }
        self.more_pixels(subject, &stream)?;
        self.fewer_pixels(subject, bound)
    }

    /// The stream stands at the output's begin, and the rest of the output stays.
    fn writes(&mut self, subject: Subject, stream: &[u8], room: usize, old: u8) -> Checked {
        let report = library::encode(subject, self.lent.preset(room, old));
        same("report", written(stream.len()), report)?;
        let (found, rest) = self.lent.target().split_at(stream.len());
        same_bytes("stream", stream, found)?;
        let kept = rest.iter().all(|byte| *byte == old);
        same("output past the stream untouched", true, kept)?;
        same("guard bytes untouched", true, self.lent.is_guarded())
    }

    /// The call is answered with this report, and no byte of the output changes.
    pub fn untouched(&mut self, subject: Subject, room: usize, expected: Report) -> Checked {
        let report = library::encode(subject, self.lent.preset(room, OLD[0]));
        same("report of a refusal", expected, report)?;
        let kept = self.lent.target().iter().all(|byte| *byte == OLD[0]);
        same("output untouched by a refusal", true, kept)?;
        same("guard bytes untouched", true, self.lent.is_guarded())
    }

    /// Both decoders give the picture back, over a target that differs from it in every byte.
    fn comes_back(&mut self, subject: Subject, stream: &[u8]) -> Checked {
        let picture = subject.picture;
        let Picture { width, height, bpp } = picture;
        self.preset_target(subject);
        let answer = oracle::decode(Case { stream, picture }, &mut self.target);
        same("rle.rs decodes", 0, answer.refusal)?;
        same_bytes("picture by rle.rs", subject.pixels, &self.target)?;
        self.preset_target(subject);
        let report = decompress_into(stream, &mut self.target, width, height, bpp);
        same("the library decodes", true, report.outcome.is_ok())?;
        same("pixels painted", width * height, report.pixels)?;
        same_bytes("picture by the library", subject.pixels, &self.target)
    }

    fn preset_target(&mut self, subject: Subject) {
        self.target.clear();
        self.target.extend(subject.pixels.iter().map(|byte| !byte));
    }

    /// Bytes after the picture are not looked at: neither such as make its last stretch longer nor
    /// others.
    fn more_pixels(&mut self, subject: Subject, stream: &[u8]) -> Checked {
        let len = subject.pixels.len();
        let size = subject.picture.shape().bytes_per_pixel;
        let row = subject.picture.width * size;
        for back in [size, row] {
            self.more.clear();
            self.more.extend_from_slice(subject.pixels);
            self.more.extend_from_slice(&subject.pixels[len - back..]);
            self.more.push(OLD[0]);
            let more = std::mem::take(&mut self.more);
            let subject = Subject {
                pixels: &more,
                ..subject
            };
            let checked = self.writes(subject, stream, stream.len(), OLD[0]);
            self.more = more;
            checked?;
        }
        Ok(())
    }

    /// A picture without its last byte, or without all, is refused whatever the output's length.
    fn fewer_pixels(&mut self, subject: Subject, bound: usize) -> Checked {
        let needed = subject.pixels.len();
        for given in [0, needed - 1] {
            let subject = Subject {
                pixels: &subject.pixels[..given],
                ..subject
            };
            for room in [0, bound] {
                self.untouched(subject, room, refused(4, needed, given))?;
            }
        }
        Ok(())
    }

    /// Sizes and depths, with a few bytes as pixels: what is refused first, as the decoder does,
    /// and with no bound; or the pixels are too few.
    pub fn refusals(&mut self, subject: Subject) -> Checked {
        let Picture { width, height, bpp } = subject.picture;
        let (expected, bound) = match subject.picture.len() {
            Some(len) if len <= subject.pixels.len() => return Ok(()),
            Some(needed) => {
                let shape = subject.picture.shape();
                let bound = rule::bound(shape.pixels(), shape.bytes_per_pixel);
                (refused(4, needed, subject.pixels.len()), bound)
            }
            None => {
                let case = Case {
                    stream: &[],
                    picture: subject.picture,
                };
                let answer = oracle::decode(case, &mut Vec::new());
                let numbers = [answer.first, answer.second].map(|number| number as usize);
                (refused(answer.refusal, numbers[0], numbers[1]), 0)
            }
        };
        same("bound", bound, compress_bound(width, height, bpp))?;
        for room in [0, 1, 64] {
            self.untouched(subject, room, expected)?;
        }
        Ok(())
    }
}
