//! Holds the library to the oracle, and to its own contract where the oracle has no answer.

use crate::answer::{refused, Answer};
use crate::case::Case;
use crate::lent::Lent;
use crate::library::{self, Report};
use crate::oracle::{self, OLD};
use crate::pauses::{self, Due, State};
use crate::same::{same, same_bytes, Checked};
use crate::states;
use crate::walks;

/// What is looked at beside the answer, the bytes of a target of the picture's length, and the
/// records of the orders.
#[derive(Clone, Copy, PartialEq, Eq)]
pub enum Effort {
    /// Nothing more.
    Basic,
    /// The painted pixels, and targets of other lengths.
    Targets,
    /// Also the orders, by decoding every prefix of the stream.
    Orders,
}

/// Compares the two decoders; the buffers are kept from case to case.
#[derive(Default)]
pub struct Checker {
    /// Records of orders compared so far.
    pub records: u64,
    /// Pauses between calls so far.
    pub pauses: u64,
    /// Made-up states so far that were gone on from.
    pub good_states: u64,
    lent: Lent,
    oracle: [Vec<u8>; 2],
}

impl Checker {
    pub fn check(&mut self, case: Case, effort: Effort) -> Checked {
        let report = self.exact(case, 0)?;
        self.records += walks::check(case, report)?;
        self.paused(case, report)?;
        if effort == Effort::Basic {
            return Ok(());
        }
        let other = self.exact(case, 1)?;
        same("reports over different old bytes", report, other)?;
        let pixels = oracle::pixels(case, &self.oracle) as u64;
        same("pixels painted", pixels, report.pixels)?;
        for more in [1, 61] {
            self.longer(case, report, more)?;
        }
        self.shorter(case, report)?;
        if effort == Effort::Orders {
            let orders = oracle::orders(case, &mut self.oracle[0]) as u64;
            same("orders completed", orders, report.orders)?;
        }
        Ok(())
    }

    /// A target of the picture's length: the answer and every byte are the oracle's.
    fn exact(&mut self, case: Case, which: usize) -> Result<Report, String> {
        let len = case.picture.target_len();
        let expected = &mut self.oracle[which];
        expected.clear();
        expected.resize(len, OLD[which]);
        let answer = oracle::decode(case, expected);
        let report = library::decode(case, self.lent.preset(len, OLD[which]));
        same("answer", answer, report.answer)?;
        same_bytes("target", &self.oracle[which], self.lent.target())?;
        self.promised(case, report)?;
        Ok(report)
    }

    /// Calls that pause give the same report and bytes.
    fn paused(&mut self, case: Case, report: Report) -> Checked {
        let (target, old) = (&self.oracle[0], OLD[0]);
        let due = Due {
            report,
            target,
            old,
        };
        self.pauses += pauses::check(case, due, self.lent.preset(target.len(), old))?;
        same("guard bytes untouched", true, self.lent.is_guarded())
    }

    /// Going on from a state that is made up.
    pub fn check_state(&mut self, case: Case, state: State, limits: [usize; 2]) -> Checked {
        let good = states::check(case, state, limits, &mut self.lent)
            .map_err(|what| format!("from state {state:?}, limits {limits:?}: {what}"))?;
        self.good_states += u64::from(good);
        Ok(())
    }

    /// What holds of every report.
    fn promised(&self, case: Case, report: Report) -> Checked {
        same("unused places of the report", [0, 0], report.unused)?;
        let bounded =
            report.orders <= report.pixels && report.pixels <= 26_214 * case.stream.len() as u64;
        same("orders <= pixels <= 26214 * stream bytes", true, bounded)?;
        self.left(case, report)?;
        same("guard bytes untouched", true, self.lent.is_guarded())
    }

    /// No more is painted than the picture has, and refusal 7 says how many bytes of it are left.
    fn left(&self, case: Case, report: Report) -> Checked {
        let whole = case.picture.len().unwrap_or(0) as u64;
        let pixel = case.picture.bytes_per_pixel().unwrap_or(1) as u64;
        match (whole.checked_sub(report.pixels * pixel), report.answer) {
            (None, _) => Err(format!("{} pixels painted", report.pixels)),
            (
                Some(left),
                Answer {
                    refusal: 7, first, ..
                },
            ) => same("picture bytes left", left, first),
            _ => Ok(()),
        }
    }

    /// A longer target gets the same report and painted bytes, and keeps all others.
    fn longer(&mut self, case: Case, report: Report, more: usize) -> Checked {
        let len = self.oracle[0].len();
        let found = library::decode(case, self.lent.preset(len + more, OLD[0]));
        same("report with a longer target", report, found)?;
        let (picture, rest) = self.lent.target().split_at(len);
        same_bytes("longer target", &self.oracle[0], picture)?;
        same(
            "rest of a longer target untouched",
            true,
            rest.iter().all(|byte| *byte == OLD[0]),
        )?;
        self.promised(case, found)
    }

    /// Targets shorter than the picture; where depth or sizes are refused, any target.
    fn shorter(&mut self, case: Case, report: Report) -> Checked {
        match case.picture.len() {
            Some(len) => [0, len / 2, len - 1]
                .into_iter()
                .try_for_each(|given| self.too_short(case, given)),
            None => [0, 1]
                .into_iter()
                .try_for_each(|given| self.untouched(case, report.answer, given)),
        }
    }

    /// A target shorter than the picture is refused before the stream is read.
    pub fn too_short(&mut self, case: Case, given: usize) -> Checked {
        match case.picture.len() {
            Some(needed) if given < needed => {
                self.untouched(case, refused(4, needed, given), given)
            }
            _ => Ok(()),
        }
    }

    /// The library gives this answer with counts of 0 and changes no byte of the target.
    fn untouched(&mut self, case: Case, answer: Answer, given: usize) -> Checked {
        let report = library::decode(case, self.lent.preset(given, OLD[1]));
        same("answer before the stream is read", answer, report.answer)?;
        same(
            "counts before the stream is read",
            (0, 0),
            (report.pixels, report.orders),
        )?;
        let kept = self.lent.target().iter().all(|byte| *byte == OLD[1]);
        same("target untouched", true, kept)?;
        self.promised(case, report)
    }

    /// The package's module and `rle.rs` leave the same vector, whatever its length was.
    pub fn check_package(&mut self, case: Case, old_len: usize) -> Checked {
        let [expected, found] = &mut self.oracle;
        for target in [&mut *expected, &mut *found] {
            target.clear();
            target.resize(old_len, OLD[0]);
        }
        same(
            "answer of the package",
            oracle::decode(case, expected),
            library::decode_by_package(case, found),
        )?;
        same_bytes("vector of the package", expected, found)
    }
}
