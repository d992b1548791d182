//! The groups of streams, and how many of each a mode takes.

use crate::case::{Case, Picture};
use crate::check::{Checker, Effort};
use crate::heap;
use crate::limits::{BPPS, SIDES};
use crate::random::Random;
use crate::same::Checked;
use crate::shrink::Failure;
use crate::states;
use crate::streams::{bytes, damage, filling, forms, orders, picture, DEPTHS};
use crate::walks;
use std::ops::RangeInclusive;
use std::process::exit;

#[derive(Clone, Copy, PartialEq, Eq)]
pub enum Mode {
    Short,
    Long,
    Valgrind,
}

type Sizes = [(usize, usize)];

/// Sizes at which all streams of a few bytes are tried.
const SMALL: [(usize, usize); 12] = [
    (4, 2),
    (40, 1),
    (3, 11),
    (20, 16),
    (1, 1),
    (1, 3),
    (2, 2),
    (5, 9),
    (8, 4),
    (16, 18),
    (287, 1),
    (33, 33),
];

/// Widths at which every form of orders is tried.
const WIDTHS: [usize; 8] = [1, 2, 3, 5, 16, 31, 300, 8192];

pub struct Run {
    mode: Mode,
    random: Random,
    checker: Checker,
    streams: u64,
}

impl Run {
    pub fn new(mode: Mode, seed: u64) -> Self {
        Self {
            mode,
            random: Random::new(seed),
            checker: Checker::default(),
            streams: 0,
        }
    }

    /// Runs every group of the mode; returns the numbers of streams, of records compared, and of
    /// pauses.
    pub fn all(mut self) -> (u64, u64, u64) {
        self.sizes_and_depths();
        match self.mode {
            Mode::Short => {
                self.every_stream("every stream of up to 2 bytes", 0..=2, &SMALL[..4]);
                self.every_form(1);
                self.by_chance(100_000);
                self.package(50_000);
                self.largest();
                self.made_up_walks(100_000);
                self.made_up_states(100_000);
            }
            Mode::Long => {
                self.every_stream("every stream of up to 2 bytes", 0..=2, &SMALL);
                self.every_stream("every stream of 3 bytes", 3..=3, &[(4, 2), (3, 11)]);
                self.every_form(3);
                self.by_chance(3_000_000);
                self.package(500_000);
                self.largest();
                self.made_up_walks(3_000_000);
                self.made_up_states(3_000_000);
            }
            Mode::Valgrind => {
                self.every_stream("every stream of up to 1 byte", 0..=1, &SMALL[..1]);
                self.by_chance(3_000);
                self.made_up_walks(3_000);
                self.made_up_states(3_000);
            }
        }
        (self.streams, self.checker.records, self.checker.pauses)
    }

    fn every_stream(&mut self, name: &str, lengths: RangeInclusive<usize>, sizes: &Sizes) {
        self.group(name, |run| {
            for length in lengths {
                for picture in with_depths(sizes) {
                    for number in 0..1_u32 << (8 * length) {
                        let stream = &number.to_be_bytes()[4 - length..];
                        // Streams of three bytes are many: a sample of them has to do.
                        let whole = length < 3 || number % 61 == 0;
                        let effort = if whole { Effort::Orders } else { Effort::Basic };
                        run.check(Case { stream, picture }, effort);
                    }
                }
            }
        });
    }

    /// Each order in the first row and in later ones, with no insert, one pending and one dropped,
    /// in a picture that it just fills or passes, whole and cut off, and in one with rows to spare.
    fn every_form(&mut self, times: usize) {
        self.group("every form of orders", |run| {
            for picture in with_depths(&WIDTHS.map(|width| (width, 1))).repeat(times) {
                for order in forms(&mut run.random, picture) {
                    let rows = 1 + order.pixels.div_ceil(picture.width);
                    let [tight, roomy] =
                        [rows, rows + 8].map(|height| Picture { height, ..picture });
                    for start in starts(picture.width) {
                        run.whole(&start, &order.bytes, tight);
                        run.whole(&start, &order.bytes, roomy);
                        run.cut_off(&start, &order.bytes, tight);
                    }
                }
            }
        });
    }

    /// Behind the order stand runs that show the insert and the foreground it leaves.
    fn whole(&mut self, start: &[u8], order: &[u8], picture: Picture) {
        self.check_form(&[start, order, &[0x03, 0x22]].concat(), picture);
    }

    fn cut_off(&mut self, start: &[u8], order: &[u8], picture: Picture) {
        let len = order.len();
        let mut cuts = vec![1, 2, 3, len / 2, len - 1];
        cuts.retain(|cut| (1..len).contains(cut));
        cuts.sort_unstable();
        cuts.dedup();
        for cut in cuts {
            self.check_form(&[start, &order[..cut]].concat(), picture);
        }
    }

    fn check_form(&mut self, stream: &[u8], picture: Picture) {
        let effort = match picture.width * picture.height {
            0..=1024 if stream.len() <= 16 => Effort::Orders,
            0..=8192 => Effort::Targets,
            _ => Effort::Basic,
        };
        self.check(Case { stream, picture }, effort);
    }

    /// The largest pictures, painted to their last pixel, and an order after that.
    fn largest(&mut self) {
        self.group("largest pictures", |run| {
            for picture in with_depths(&[(8192, 8192)]) {
                let mut stream = filling(&mut run.random, picture);
                stream.push(0xFE);
                let stream = &stream;
                run.check(Case { stream, picture }, Effort::Basic);
            }
        });
    }

    fn by_chance(&mut self, many: usize) {
        self.group("orders by chance", |run| {
            run.streams_by_chance(many, |_, _| ());
        });
        self.group("damaged orders", |run| {
            run.streams_by_chance(many, damage);
        });
        self.group("bytes by chance", |run| {
            run.streams_by_chance(many / 2, |random, stream| *stream = bytes(random));
        });
    }

    fn streams_by_chance(&mut self, many: usize, change: fn(&mut Random, &mut Vec<u8>)) {
        for _ in 0..many {
            let picture = picture(&mut self.random);
            let mut stream = orders(&mut self.random, picture);
            change(&mut self.random, &mut stream);
            let pixels = picture.width * picture.height;
            let effort = match stream.len() {
                0..=40 if pixels <= 1024 => Effort::Orders,
                _ if pixels <= 8192 || self.random.one_in(8) => Effort::Targets,
                _ => Effort::Basic,
            };
            let stream = &stream;
            self.check(Case { stream, picture }, effort);
        }
    }

    fn sizes_and_depths(&mut self) {
        // The last one fills the first row of the largest width and goes on.
        let streams: [&[u8]; 4] = [
            &[],
            &[0x24, 0xA0],
            &[0x02, 0x02],
            &[0xF1, 0x00, 0x20, 0x01, 0x01],
        ];
        self.group("sizes and depths", |run| {
            for (width, height) in SIDES.into_iter().flat_map(|w| SIDES.map(|h| (w, h))) {
                for bpp in BPPS {
                    let picture = Picture { width, height, bpp };
                    for stream in streams {
                        run.size_and_depth(Case { stream, picture });
                    }
                }
            }
        });
    }

    /// A picture that is too large for the mode is only held to its refusal of a short target.
    fn size_and_depth(&mut self, case: Case) {
        let most = if self.mode == Mode::Valgrind {
            1 << 14
        } else {
            1 << 18
        };
        match case.picture.len() {
            Some(len) if len > most && self.mode != Mode::Long => {
                self.hold(case, |checker, case| checker.too_short(case, 100));
            }
            Some(len) if len > most => self.check(case, Effort::Basic),
            _ => self.check(case, Effort::Targets),
        }
    }

    /// The package's module that resizes vectors, from vectors of several lengths.
    fn package(&mut self, many: usize) {
        self.group("vectors of the package", |run| {
            for _ in 0..many {
                let (picture, stream) = run.any_picture();
                let stream = &stream;
                let len = picture.len().unwrap_or(8);
                let old_len = run.random.pick(&[0, len / 2, len, len + 9]);
                run.hold(Case { stream, picture }, |checker, case| {
                    checker.check_package(case, old_len)
                });
            }
        });
    }

    /// Walks that begin with numbers by chance. `rle.rs` has none, so their streams do not count.
    fn made_up_walks(&mut self, many: usize) {
        let before = self.checker.records;
        for _ in 0..many {
            let (picture, stream) = self.any_picture();
            let stream = &stream;
            let case = Case { stream, picture };
            let walk = walks::made_up(&mut self.random, case);
            self.stop_if_wrong(case, |checker, case| {
                checker.records += walks::follow(case, walk)?.orders;
                Ok(())
            });
        }
        let records = self.checker.records - before;
        println!("made-up walks: {many} walks, {records} records");
    }

    /// States that decoding goes on from, with numbers by chance. Their streams do not count either.
    fn made_up_states(&mut self, many: usize) {
        for _ in 0..many {
            let (picture, stream) = self.any_picture();
            let stream = &stream;
            let case = Case { stream, picture };
            let state = states::made_up(&mut self.random, case);
            let limits = [5, 9].map(|most| self.random.below(most));
            self.stop_if_wrong(case, |checker, case| {
                checker.check_state(case, state, limits)
            });
        }
        let good = self.checker.good_states;
        println!("made-up states: {many} states, {good} of them good");
    }

    /// A picture, with a depth and sizes that may be refused, and a stream in a block of exactly
    /// its length.
    fn any_picture(&mut self) -> (Picture, Box<[u8]>) {
        let picture = match self.random.below(8) {
            0 => Picture {
                width: self.random.pick(&SIDES),
                height: self.random.pick(&[0, 1, 8193]),
                bpp: self.random.pick(&BPPS),
            },
            _ => picture(&mut self.random),
        };
        let stream = match picture.len() {
            Some(_) => orders(&mut self.random, picture),
            None => bytes(&mut self.random),
        };
        (picture, stream.into())
    }

    fn group(&mut self, name: &str, body: impl FnOnce(&mut Self)) {
        let before = self.streams;
        body(self);
        println!("{name}: {} streams", self.streams - before);
    }

    fn check(&mut self, case: Case, effort: Effort) {
        if self.mode == Mode::Valgrind {
            self.hold(case, |checker, case| {
                let (records, pauses) = heap::check(case)?;
                checker.records += records;
                checker.pauses += pauses;
                Ok(())
            });
        } else {
            self.hold(case, |checker, case| checker.check(case, effort));
        }
    }

    /// Counts a stream that is compared.
    fn hold(&mut self, case: Case, check: impl Fn(&mut Checker, Case) -> Checked) {
        self.streams += 1;
        self.stop_if_wrong(case, check);
    }

    /// Ends the program with the smallest case found if this one fails.
    fn stop_if_wrong(&mut self, case: Case, check: impl Fn(&mut Checker, Case) -> Checked) {
        let Err(what) = check(&mut self.checker, case) else {
            return;
        };
        let mut failure = Failure::new(case, what);
        failure.shrink(&mut |case| check(&mut self.checker, case));
        println!("a difference:\n{}{}", failure.case(), failure.what);
        exit(1);
    }
}

fn with_depths(sizes: &Sizes) -> Vec<Picture> {
    let with_depth = |&(width, height)| DEPTHS.map(|bpp| Picture { width, height, bpp });
    sizes.iter().flat_map(with_depth).collect()
}

/// What may stand before an order: nothing; an insert pending; the first row; the first row with an
/// insert that is dropped; some pixels of later rows, without and with an insert pending; the first
/// row all but its last pixel.
fn starts(width: usize) -> Vec<Vec<u8>> {
    let run = |header: u8, length: usize| {
        let [low, high] = (length as u16).to_le_bytes();
        vec![header, low, high]
    };
    let mut starts = vec![
        vec![],
        vec![0x01],
        run(0xF1, width),
        run(0xF0, width),
        [run(0xF1, width), vec![0x22]].concat(),
        [run(0xF1, width), vec![0x22, 0x01]].concat(),
    ];
    if width > 1 {
        starts.push(run(0xF1, width - 1));
    }
    starts
}
