//! Holds calls that stop after some orders to the one call that does not.

use crate::answer::Answer;
use crate::case::Case;
use crate::library::{self, Report};
use crate::random::Random;
use crate::same::{same, same_bytes, Checked};

/// All places of a state, as `include/nulambiro.h` numbers them.
pub type State = [u64; 8];

pub const PAUSED: Answer = Answer {
    format: 0,
    refusal: 0,
    first: 0,
    second: 0,
};

/// Targets up to this length are looked at whole in each pause, and drawn on behind the painted
/// bytes; of longer ones, what is painted since the last pause, and as much as this behind it.
const SMALL: usize = 4096;

/// What is due of the calls: report and target of one call over the old bytes.
#[derive(Clone, Copy)]
pub struct Due<'a> {
    pub report: Report,
    pub target: &'a [u8],
    pub old: u8,
}

/// Calls with limits by chance, into a target of old bytes, give together what is due; returns how
/// many pauses there were.
pub fn check(case: Case, due: Due, target: &mut [u8]) -> Result<u64, String> {
    let mut random = Random::new(seed(case));
    let mut state = library::start(case.picture.bpp);
    let mut pauses = 0;
    loop {
        let before = state;
        let limit = limit(&mut random);
        let found = library::decode_some(case, target, limit, &mut state);
        let orders = found.orders.saturating_sub(before[5]);
        if found.answer != PAUSED {
            same("report of calls that pause", due.report, found)?;
            same("state where none is reached", before, state)?;
            same("orders within the limit", true, orders <= limit as u64)?;
            ended(case, due, pauses, target)?;
            return Ok(pauses);
        }
        same("orders up to a pause", limit as u64, orders)?;
        paused(case, found, before, state)?;
        looked_at(case, due, pauses, [before, state], target)?;
        pauses += 1;
    }
}

/// The counts are those of the state, which stands within the stream, and behind the one before
/// where there were orders.
fn paused(case: Case, found: Report, before: State, state: State) -> Checked {
    let [bytes, pixels, _, _, _, orders, unused @ ..] = state;
    same("unused places of a state", [0, 0], unused)?;
    let counts = (found.pixels, found.orders);
    same("counts of a pause", (pixels, orders), counts)?;
    same(
        "stream behind a pause",
        true,
        bytes < case.stream.len() as u64,
    )?;
    let order = orders > before[5];
    let further = (bytes > before[0], pixels > before[1]);
    same("bytes and pixels of a pause", (order, order), further)?;
    if !order {
        same("state without an order", before, state)?;
    }
    Ok(())
}

/// What is painted by a pause is as is due, and what was drawn behind it has stayed; it is drawn on
/// for the next call.
fn looked_at(case: Case, due: Due, pauses: u64, states: [State; 2], target: &mut [u8]) -> Checked {
    let pixel = case.picture.bytes_per_pixel().unwrap_or(0);
    let [last, painted] = states.map(|state| state[1] as usize * pixel);
    let small = target.len() <= SMALL;
    let from = if small { 0 } else { last };
    same_bytes(
        "painted by a pause",
        &due.target[from..painted],
        &target[from..painted],
    )?;
    let end = target.len().min(painted + SMALL);
    let behind = &mut target[painted..end];
    untouched(behind, drawn(due, small, pauses))?;
    behind.fill(drawn(due, small, pauses + 1));
    Ok(())
}

/// All bytes are as is due, but for those that were drawn behind the painted ones in the last pause.
fn ended(case: Case, due: Due, pauses: u64, target: &mut [u8]) -> Checked {
    let painted = due.report.pixels as usize * case.picture.bytes_per_pixel().unwrap_or(0);
    let (begin, behind) = target.split_at(painted);
    same_bytes("painted by calls that pause", &due.target[..painted], begin)?;
    untouched(behind, drawn(due, target.len() <= SMALL, pauses))
}

/// The byte that is drawn in a pause, counted from 1; the old one where nothing is.
fn drawn(due: Due, small: bool, pause: u64) -> u8 {
    if small {
        due.old.wrapping_add(pause as u8)
    } else {
        due.old
    }
}

fn untouched(bytes: &[u8], byte: u8) -> Checked {
    let stayed = bytes.iter().all(|found| *found == byte);
    same("bytes behind the painted ones untouched", true, stayed)
}

/// Mostly few orders, also none, at times more than a stream has.
fn limit(random: &mut Random) -> usize {
    match random.below(16) {
        0 => usize::MAX,
        1 => random.range(4, 40),
        _ => random.below(4),
    }
}

/// The same limits for the same case, so that a smaller case that fails can be looked for.
fn seed(case: Case) -> u64 {
    let numbers = [case.picture.width, case.picture.height, case.picture.bpp];
    let bytes = case.stream.iter().map(|byte| u64::from(*byte));
    let all = numbers.into_iter().map(|number| number as u64).chain(bytes);
    all.fold(9, |seed, number| seed.wrapping_mul(31) ^ number)
}
