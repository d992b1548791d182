//! The check that is made under valgrind: every buffer is a heap block of exactly its length, so a
//! byte read or written outside of it is found. Targets are not initialized first: comparing a
//! painted byte that depends on an old one is then an error too.

use crate::answer::refused;
use crate::case::Case;
use crate::library::{decode_in_new_block, Report};
use crate::oracle;
use crate::pauses::{self, Due};
use crate::walks;

/// What the oracle's target holds where nothing is painted.
const OLD: u8 = oracle::OLD[0];

/// Returns how many records of orders were compared, and how many pauses there were.
pub fn check(case: Case) -> Result<(u64, u64), String> {
    let stream: Box<[u8]> = case.stream.into();
    let case = Case {
        stream: &stream,
        ..case
    };
    targets(case)?;
    let len = case.picture.target_len();
    let (report, mut picture) = decode_in_new_block(case, len);
    picture.resize(len, OLD);
    let due = Due {
        report,
        target: &picture,
        old: OLD,
    };
    let mut target = vec![OLD; len].into_boxed_slice();
    let pauses = pauses::check(case, due, &mut target)?;
    Ok((walks::check(case, report)?, pauses))
}

fn targets(case: Case) -> Result<(), String> {
    let Some(len) = case.picture.len() else {
        let answer = oracle::decode(case, &mut Vec::new());
        return [0, 1, 64].into_iter().try_for_each(|given| {
            let (report, _) = decode_in_new_block(case, given);
            expect(
                report.answer == answer && report.pixels == 0,
                case,
                given,
                report,
            )
        });
    };
    let mut picture = vec![OLD; len];
    let answer = oracle::decode(case, &mut picture);
    for given in [len, len + 1, len + 61] {
        let (report, painted) = decode_in_new_block(case, given);
        let (begin, rest) = picture.split_at(painted.len());
        let good = begin == painted && rest.iter().all(|byte| *byte == OLD);
        expect(good && report.answer == answer, case, given, report)?;
    }
    for given in [0, len / 2, len - 1] {
        let (report, painted) = decode_in_new_block(case, given);
        let good = report.answer == refused(4, len, given) && painted.is_empty();
        expect(good, case, given, report)?;
    }
    Ok(())
}

/// Looks at every place of the report: valgrind then sees one that the library did not write.
fn expect(good: bool, case: Case, given: usize, report: Report) -> Result<(), String> {
    if good && report.orders <= report.pixels && report.unused == [0, 0] {
        return Ok(());
    }
    let bytes = case.stream.len();
    Err(format!(
        "target of {given} bytes, stream of {bytes}: wrong report or picture, {report:?}"
    ))
}
