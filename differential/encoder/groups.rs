//! The groups of pictures, and how many of each a mode takes.

use crate::case::Picture;
use crate::check::{Checker, Effort};
use crate::heap;
use crate::limits::{BPPS, SIDES};
use crate::outside::Outside;
use crate::pictures::{
    all_different, columns, copies, longest_stream, lose_by_one, noise, one_color, painted, photo,
    plan, rows, stretches, threes, twos, Color, Shape,
};
use crate::random::Random;
use crate::rule;
use crate::same::{same, Checked};
use crate::shrink::Failure;
use crate::subject::Subject;
use std::process::exit;

#[derive(Clone, Copy, PartialEq, Eq)]
pub enum Mode {
    Short,
    Long,
    Valgrind,
    Peers,
}

/// The depths that are encoded.
const DEPTHS: [usize; 4] = [8, 15, 16, 24];

/// Lengths at which a run begins or the form of a length changes, and their neighbors.
const EDGES: [usize; 12] = [1, 2, 3, 4, 30, 31, 32, 33, 286, 287, 288, 289];

/// The longest lengths, and some that leave others of them where they are.
const LONGEST: [usize; 8] = [65_534, 65_535, 65_536, 65_537, 131_070, 2, 3, 32];

/// A way to paint a picture, with its name.
type Kind = (&'static str, fn(&mut Random, Shape) -> Vec<u8>);

const KINDS: [Kind; 12] = [
    ("noise", noise),
    ("one color", one_color),
    ("columns", columns),
    ("rows", rows),
    ("photo", photo),
    ("plan", plan),
    ("copies of a row", copies),
    ("no pixel as another beside it", |_, shape| {
        all_different(shape)
    }),
    ("longest stream", |_, shape| longest_stream(shape)),
    ("stretches of two", |_, shape| twos(shape)),
    ("stretches of three", |_, shape| threes(shape)),
    ("stretches that lose by one", |_, shape| lose_by_one(shape)),
];

/// Sizes at which every kind of picture is tried: one pixel, one row, rows of one, tiles and
/// others.
const SIZES: [(usize, usize); 12] = [
    (1, 1),
    (2, 1),
    (1, 2),
    (500, 1),
    (1, 500),
    (8192, 1),
    (1, 8192),
    (64, 64),
    (97, 61),
    (300, 220),
    (331, 198),
    (8192, 9),
];

/// Colors that differ in their first byte, and others that do in their last; the first two in
/// nothing else. A depth takes the first or the last bytes.
const FIRST: [Color; 4] = [[1, 1, 1], [2, 1, 1], [3, 2, 2], [1, 2, 3]];
const LAST: [Color; 4] = [[1, 1, 1], [1, 1, 2], [2, 2, 3], [3, 2, 1]];

pub struct Run {
    mode: Mode,
    random: Random,
    checker: Checker,
    outside: Option<Outside>,
    pictures: u64,
}

impl Run {
    pub fn new(mode: Mode, seed: u64) -> Self {
        Self {
            mode,
            random: Random::new(seed),
            checker: Checker::default(),
            outside: (mode == Mode::Peers).then(Outside::from_environment),
            pictures: 0,
        }
    }

    /// Runs every group of the mode; returns the number of pictures.
    pub fn all(mut self) -> u64 {
        match self.mode {
            Mode::Short => {
                self.sizes_and_depths();
                self.every_picture(2, 14);
                self.every_picture(3, 8);
                self.ties();
                self.by_chance(60_000);
                self.around_limits(12);
                self.longest_streams(10);
                self.every_kind(&SIZES);
                self.largest(&KINDS[5..6], &[8]);
            }
            Mode::Long => {
                self.sizes_and_depths();
                self.every_picture(2, 17);
                self.every_picture(3, 11);
                self.every_picture(4, 9);
                self.ties();
                self.by_chance(3_000_000);
                self.around_limits(500);
                self.longest_streams(200);
                self.every_kind(&SIZES);
                self.every_kind(&[(2048, 2048)]);
                self.largest(&KINDS, &DEPTHS);
            }
            Mode::Valgrind => {
                self.sizes_and_depths();
                self.every_picture(2, 6);
                self.by_chance(3_000);
                self.every_kind(&[(1, 1), (40, 1), (1, 40), (33, 20), (300, 3)]);
            }
            Mode::Peers => {
                self.every_picture(2, 9);
                self.by_chance(20_000);
                self.around_limits(20);
                self.every_kind(&SIZES);
                self.every_kind(&[(2048, 2048)]);
            }
        }
        if let Some(outside) = &mut self.outside {
            outside.finish();
        }
        self.pictures
    }

    /// Every picture of up to so many pixels and so many colors, in rows of every length.
    fn every_picture(&mut self, colors: usize, most: usize) {
        let name = format!("every picture of up to {most} pixels and {colors} colors");
        self.group(&name, |run| {
            for pixels in 1..=most {
                for width in (1..=pixels).filter(|width| pixels % width == 0) {
                    let height = pixels / width;
                    for (bpp, set, first) in [
                        (8, FIRST, true),
                        (15, FIRST, true),
                        (16, LAST, false),
                        (24, FIRST, true),
                        (24, LAST, false),
                    ] {
                        let picture = Picture { width, height, bpp };
                        run.every_choice(picture, &set[..colors], first);
                    }
                }
            }
        });
    }

    fn every_choice(&mut self, picture: Picture, colors: &[Color], first: bool) {
        let shape = picture.shape();
        let mut choice = vec![0; shape.pixels()];
        loop {
            let pixels = painted(shape, |k| {
                let mut color = colors[choice[k]];
                if !first {
                    color.rotate_left(3 - shape.bytes_per_pixel);
                }
                color
            });
            self.check(&pixels, picture);
            // The next number with so many digits.
            let Some(at) = choice.iter().position(|digit| digit + 1 < colors.len()) else {
                break;
            };
            choice[..at].fill(0);
            choice[at] += 1;
        }
    }

    /// Equal pixels over equal pixels: the stretches are as long, or the one or the other is
    /// longer.
    fn ties(&mut self) {
        self.group("stretches as long, and nearly so", |run| {
            for length in [3, 4, 8, 16, 31, 32, 64, 287, 288, 1000, 8183] {
                for bpp in DEPTHS {
                    for above in length - 1..=length + 1 {
                        for (equal, common) in (length - 1..=length + 1)
                            .flat_map(|equal| [0, 1, 2].map(|common| (equal, common)))
                        {
                            run.tie(length + 8, bpp, above, equal, common);
                        }
                    }
                }
            }
        });
    }

    /// Two rows: other pixels, `above` and `equal` of one color, and then `common` that are the
    /// same in both rows.
    fn tie(&mut self, width: usize, bpp: usize, above: usize, equal: usize, common: usize) {
        let picture = Picture {
            width,
            height: 2,
            bpp,
        };
        let pixels = painted(picture.shape(), |k| {
            let (column, row) = (k % width, k / width);
            let same = [above, equal][row];
            match column {
                0 => [10 + row as u8, 0, 0],
                _ if column <= same => [7, 0, 0],
                _ if column - same <= common => [20 + (column - same) as u8, 0, 0],
                _ => [30 + 2 * (column % 50) as u8 + row as u8, 0, 0],
            }
        });
        self.check(&pixels, picture);
    }

    /// Small pictures of short stretches and few colors, and some larger ones.
    fn by_chance(&mut self, many: usize) {
        self.group("stretches by chance", |run| {
            for _ in 0..many {
                let (width, height) = match run.random.below(100) {
                    0..=79 => (run.random.range(1, 12), run.random.range(1, 9)),
                    80..=96 => (run.random.range(1, 70), run.random.range(1, 12)),
                    97 | 98 => (run.random.range(1, 700), run.random.range(1, 3)),
                    _ => (run.random.range(1, 3), run.random.range(1, 700)),
                };
                let bpp = run.random.pick(&DEPTHS);
                let picture = Picture { width, height, bpp };
                let lengths: &[usize] = if run.random.one_in(4) {
                    &EDGES
                } else {
                    &[1, 1, 2, 2, 3, 3, 4, 5, 8]
                };
                let pixels = stretches(&mut run.random, picture.shape(), lengths);
                run.check(&pixels, picture);
            }
        });
    }

    /// Stretches at and around 3, 31, 32, 287 and 288 pixels, and at and around 65,535.
    fn around_limits(&mut self, times: usize) {
        self.group("stretches around the limits", |run| {
            for _ in 0..times {
                for bpp in DEPTHS {
                    let width = run.random.pick(&[1, 2, 3, 31, 64, 300, 1024]);
                    let height = (6000_usize).div_ceil(width);
                    let small = Picture { width, height, bpp };
                    let pixels = stretches(&mut run.random, small.shape(), &EDGES);
                    run.check(&pixels, small);

                    let any = run.random.range(30, 8192);
                    let width = run.random.pick(&[64, 255, 256, 300, 8192, any]);
                    let height = run.random.range(131_072, 262_144).div_ceil(width);
                    let large = Picture { width, height, bpp };
                    let pixels = stretches(&mut run.random, large.shape(), &LONGEST);
                    run.check(&pixels, large);
                    let pixels = copies(&mut run.random, large.shape());
                    run.check(&pixels, large);
                }
            }
        });
    }

    /// Pictures whose stream is as long as the bound says, and such with a few pixels changed.
    fn longest_streams(&mut self, changes: usize) {
        let rows = (1..=400).map(|width| (width, 1));
        let more = [(255, 257), (256, 256), (331, 198), (510, 257), (8192, 40)];
        let sizes: Vec<_> = rows.chain(more).collect();
        self.group("longest streams", |run| {
            for (width, height) in sizes {
                for bpp in DEPTHS {
                    let picture = Picture { width, height, bpp };
                    let mut pixels = longest_stream(picture.shape());
                    run.hold(&pixels, picture, |checker, subject| {
                        reaches_bound(subject)?;
                        checker.check(subject, Effort::Lengths)
                    });
                    for _ in 0..if height == 1 { changes } else { 0 } {
                        let (from, to) = (
                            run.random.below(pixels.len()),
                            run.random.below(pixels.len()),
                        );
                        pixels[to] = pixels[from];
                        run.check(&pixels, picture);
                    }
                }
            }
        });
    }

    fn every_kind(&mut self, sizes: &[(usize, usize)]) {
        for (name, paint) in KINDS {
            self.group(name, |run| {
                for (width, height) in sizes.iter().copied() {
                    for bpp in DEPTHS {
                        let picture = Picture { width, height, bpp };
                        let pixels = paint(&mut run.random, picture.shape());
                        run.check(&pixels, picture);
                    }
                }
            });
        }
    }

    fn largest(&mut self, kinds: &[Kind], depths: &[usize]) {
        for (name, paint) in kinds {
            self.group(&format!("{name}, 8192 x 8192"), |run| {
                for bpp in depths.iter().copied() {
                    let picture = Picture {
                        width: 8192,
                        height: 8192,
                        bpp,
                    };
                    let pixels = paint(&mut run.random, picture.shape());
                    run.check(&pixels, picture);
                }
            });
        }
    }

    fn sizes_and_depths(&mut self) {
        self.group("sizes and depths", |run| {
            for (width, height) in SIDES.into_iter().flat_map(|w| SIDES.map(|h| (w, h))) {
                for bpp in BPPS {
                    let picture = Picture { width, height, bpp };
                    run.hold(&[7; 5], picture, Checker::refusals);
                }
            }
        });
    }

    fn group(&mut self, name: &str, body: impl FnOnce(&mut Self)) {
        let before = self.pictures;
        body(self);
        println!("{name}: {} pictures", self.pictures - before);
    }

    fn check(&mut self, pixels: &[u8], picture: Picture) {
        if let Some(outside) = &mut self.outside {
            self.pictures += 1;
            outside.check(Subject { pixels, picture });
            return;
        }
        match self.mode {
            Mode::Valgrind => self.hold(pixels, picture, |_, subject| heap::check(subject)),
            // Large pictures take too long for all lengths of outputs.
            _ if pixels.len() > 1 << 20 => self.hold(pixels, picture, |checker, subject| {
                checker.check(subject, Effort::Basic)
            }),
            _ => self.hold(pixels, picture, |checker, subject| {
                checker.check(subject, Effort::Lengths)
            }),
        }
    }

    /// Ends the program with the smallest picture found if this one fails.
    fn hold(
        &mut self,
        pixels: &[u8],
        picture: Picture,
        check: impl Fn(&mut Checker, Subject) -> Checked,
    ) {
        self.pictures += 1;
        let subject = Subject { pixels, picture };
        let Err(what) = check(&mut self.checker, subject) else {
            return;
        };
        let mut failure = Failure::new(subject, what);
        failure.shrink(&mut |subject| check(&mut self.checker, subject));
        println!("the encoder fails:\n{}{}", failure.subject(), failure.what);
        exit(1);
    }
}

/// No shorter output serves all pictures: this one needs it all.
fn reaches_bound(subject: Subject) -> Checked {
    let shape = subject.picture.shape();
    let stream = rule::encode(subject.pixels, shape.width, shape.bytes_per_pixel);
    let bound = rule::bound(shape.pixels(), shape.bytes_per_pixel);
    same("longest stream", bound, stream.len())
}
