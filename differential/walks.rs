//! Holds the library's walks over orders, and their records, to the plain reader.

use crate::case::Case;
use crate::library::{next_order, order_record, Report};
use crate::limits::SIDES;
use crate::random::Random;
use crate::records::{next, Record, Walk, NO_ORDER, START};
use crate::same::same;

/// Where a walk has come to.
pub struct Followed {
    /// Orders that were found, each compared.
    pub orders: u64,
    last: Record,
    end: Walk,
}

/// Follows a walk, order by order, until it finds none and stays as it is.
pub fn follow(case: Case, from: Walk) -> Result<Followed, String> {
    let mut followed = Followed {
        orders: 0,
        last: NO_ORDER,
        end: from,
    };
    loop {
        let walk = followed.end;
        let found = next_order(case, walk);
        same("order of a walk", (walk, next(case, walk)), (walk, found))?;
        let (record, behind) = found;
        if record == NO_ORDER {
            return Ok(followed);
        }
        followed = Followed {
            orders: followed.orders + 1,
            last: record,
            end: behind,
        };
    }
}

/// A walk over the whole stream finds the orders that decoding completes, and by number the last of
/// them is found and none after it; returns how many there are.
pub fn check(case: Case, report: Report) -> Result<u64, String> {
    let Followed { orders, last, end } = follow(case, START)?;
    same("orders of a walk", report.orders, orders)?;
    if report.answer.refusal == 0 {
        let whole = (case.stream.len() as u64, report.pixels);
        same("bytes and pixels of a walk", whole, (end[0], end[1]))?;
    }
    let count = orders as usize;
    if let Some(n) = count.checked_sub(1) {
        same("record of the last order", last, order_record(case, n))?;
    }
    // The second number is 0 if its high bits are lost.
    for n in [count, 1 << 32, usize::MAX] {
        let record = order_record(case, n);
        same("record past the last order", NO_ORDER, record)?;
    }
    Ok(orders)
}

/// A walk that mostly no stream leads to: in the stream and the picture, at their ends, or of any
/// numbers.
pub fn made_up(random: &mut Random, case: Case) -> Walk {
    let mut walk = START.map(|_| match random.below(2) {
        0 => 0,
        _ => random.pick(&SIDES) as u64,
    });
    let mut place = |end: usize| match random.below(8) {
        0 => random.pick(&SIDES) as u64,
        1 => (end + random.below(3)).saturating_sub(1) as u64,
        _ => random.below(end + 1) as u64,
    };
    // Sizes that are refused may have more pixels than there are numbers.
    let pixels = case.picture.width.saturating_mul(case.picture.height);
    walk[0] = place(case.stream.len());
    walk[1] = place(pixels.min(8192 * 8192));
    walk
}
