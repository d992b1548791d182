//! Holds going on from states of any numbers to the tests that a state has to pass, and to itself
//! with a pause.

use crate::answer::Answer;
use crate::case::Case;
use crate::lent::Lent;
use crate::library::{decode_some, start, Report};
use crate::limits::SIDES;
use crate::pauses::{State, PAUSED};
use crate::random::Random;
use crate::same::{same, same_bytes, Checked};

/// What a target holds, so that the pixels above are not all alike.
const OLD: [u8; 3] = [0x5A, 0xC3, 0x0F];

const BAD_STATE: Answer = Answer {
    refusal: 15,
    ..PAUSED
};

/// A state that mostly no stream leads to: near the ends of the stream and of the picture, and some
/// numbers that no state has.
pub fn made_up(random: &mut Random, case: Case) -> State {
    let picture = case.picture;
    let pixels = picture
        .width
        .saturating_mul(picture.height)
        .min(8192 * 8192);
    let mut state = start(picture.bpp);
    state[0] = near(random, case.stream.len());
    state[1] = match random.below(4) {
        0 => near(random, picture.width.min(pixels)),
        _ => near(random, pixels),
    };
    let bits = 8 * random.range(1, 3);
    if random.one_in(2) {
        state[2] = random.below(1 << bits) as u64;
    }
    state[3] = random.below(2) as u64;
    state[4] = random.below(2) as u64;
    state[5] = near(random, state[1].min(1 << 32) as usize);
    if random.one_in(8) {
        let place = random.range(2, 7);
        state[place] = random.pick(&SIDES) as u64;
    }
    state
}

/// A number up to this end, at times just past it or any.
fn near(random: &mut Random, end: usize) -> u64 {
    match random.below(16) {
        0 => random.pick(&SIDES) as u64,
        1 | 2 => (end + random.below(3)).saturating_sub(1) as u64,
        _ => random.below(end + 1) as u64,
    }
}

/// Whether a state is none of this stream and this picture, of D bytes a pixel.
fn is_bad(case: Case, state: State, pixel: usize) -> bool {
    let [bytes, pixels, foreground, insert, first_row, orders, unused @ ..] = state;
    let [width, height, len] = [case.picture.width, case.picture.height, case.stream.len()];
    bytes > len as u64
        || pixels > (width * height) as u64
        || pixels < orders
        || first_row == 0 && pixels < width as u64
        || foreground >> (8 * pixel) > 0
        || insert.max(first_row) > 1
        || unused != [0, 0]
}

/// Goes on from a state, in one call and with a pause in between; says whether it was not refused.
pub fn check(
    case: Case,
    state: State,
    limits: [usize; 2],
    lent: &mut Lent,
) -> Result<bool, String> {
    let len = case.picture.target_len();
    let old: Vec<u8> = OLD.into_iter().cycle().take(len).collect();
    let target = lent.preset(len, 0);
    target.copy_from_slice(&old);
    let mut behind = state;
    let report = decode_some(
        case,
        target,
        limits[0].saturating_add(limits[1]),
        &mut behind,
    );
    let good = match (case.picture.len(), case.picture.bytes_per_pixel()) {
        (Some(_), Some(pixel)) if !is_bad(case, state, pixel) => {
            bounds(case, state, report, limits)?;
            kept(
                &old,
                target,
                [state[1], report.pixels].map(|pixels| pixels as usize * pixel),
            )?;
            with_a_pause(case, state, limits, (report, behind, target), old)?;
            true
        }
        (refused, _) => {
            if refused.is_some() {
                same("answer to a bad state", BAD_STATE, report.answer)?;
            }
            let counts = (report.pixels, report.orders);
            same("refusal before the stream", true, report.answer.refusal > 0)?;
            same("counts before the stream", (0, 0), counts)?;
            same("state of a refused call", state, behind)?;
            same_bytes("target of a refused call", &old, target)?;
            false
        }
    };
    same("guard bytes untouched", true, lent.is_guarded())?;
    Ok(good)
}

/// The counts go on from those of the state, which is not refused.
fn bounds(case: Case, state: State, report: Report, limits: [usize; 2]) -> Checked {
    let most = limits[0].saturating_add(limits[1]) as u64;
    let whole = (case.picture.width * case.picture.height) as u64;
    let from_stream = matches!(report.answer.refusal, 0 | 5..=8);
    same("answer to a good state", true, from_stream)?;
    same(
        "pixels go on",
        true,
        (state[1]..=whole).contains(&report.pixels),
    )?;
    let orders = report.orders.checked_sub(state[5]);
    same(
        "orders go on",
        true,
        orders.is_some_and(|orders| orders <= most),
    )?;
    same("orders <= pixels", true, report.orders <= report.pixels)
}

/// Bytes before the state's pixels and behind the painted ones are as they were.
fn kept(old: &[u8], target: &[u8], [begin, end]: [usize; 2]) -> Checked {
    same_bytes(
        "bytes before the state's pixels",
        &old[..begin],
        &target[..begin],
    )?;
    same_bytes("bytes behind the painted ones", &old[end..], &target[end..])
}

/// Report, state and target are those of a call with the first limit, and, where that pauses, of one
/// more with the second.
fn with_a_pause(
    case: Case,
    mut state: State,
    [first, second]: [usize; 2],
    due: (Report, State, &[u8]),
    mut target: Vec<u8>,
) -> Checked {
    let begin = state;
    let mut report = decode_some(case, &mut target, first, &mut state);
    if report.answer == PAUSED {
        report = decode_some(case, &mut target, second, &mut state);
    }
    same("report with a pause", due.0, report)?;
    same_bytes("target with a pause", due.2, &target)?;
    let paused = report.answer == PAUSED;
    same(
        "state where none is reached",
        true,
        paused || due.1 == begin,
    )?;
    same("state with a pause", true, !paused || due.1 == state)
}
