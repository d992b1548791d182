//! Requests about decoding that stops after some orders.

use crate::answers::{hex, refusal, Answer};
use crate::block::{bytes, number, Block};
use crate::stop;
use nulambiro::{Decoder, Progress, Refusal, ResumeError, RlePixelFormat, State};

type Came = Result<Progress, ResumeError>;

/// Calls of at most so many orders each, `limits=`, into `target=`, until one does not pause:
/// `width=`, `height=`, `bpp=`, `stream=`, and `state=` where the first call does not begin at the
/// start.
pub fn pause(case: &Block) -> Answer {
    let [width, height, bpp] = ["width", "height", "bpp"].map(|key| case.number(key));
    let (stream, mut target) = (case.bytes("stream"), case.bytes("target"));
    let state = case.find("state").map_or(State::start(bpp), read_state);
    let mut decoder = Decoder::resume(width, height, bpp, state);
    let mut text = String::new();
    for limit in case.numbers("limits") {
        let came = match &mut decoder {
            Err(refusal) => Err(ResumeError::Refused(refusal.clone())),
            Ok(decoder) => decoder.decode_some(&stream, &mut target, limit),
        };
        text += &lines(&came, decoder.as_ref().ok(), &target);
        if came != Ok(Progress::Paused) {
            break;
        }
    }
    Answer {
        text,
        in_part: false,
    }
}

/// Reads a state. Behind the six that the package's has, a seventh may stand: its last kind.
fn read_state(text: &str) -> State {
    let words: Vec<&str> = text.split(',').collect();
    let [place, pixels, foreground, insert, mark, orders, ..] = words[..] else {
        stop(&format!("{text:?} is no state"));
    };
    State {
        bytes: number(place),
        pixels: number(pixels),
        foreground: bytes(foreground)
            .try_into()
            .unwrap_or_else(|_| stop(&format!("{foreground:?} are no three bytes"))),
        insert: insert == "yes",
        first_row: mark == "on",
        orders: number(orders),
    }
}

/// The answer to one call.
fn lines(came: &Came, decoder: Option<&Decoder>, target: &[u8]) -> String {
    let format = match came {
        Ok(Progress::Ended(format)) => name(*format),
        _ => "none",
    };
    let (paused, state) = match (came, decoder) {
        (Ok(Progress::Paused), Some(decoder)) => ("yes", written(decoder.state())),
        _ => ("no", String::from("none")),
    };
    let (orders, pixels) = match (came, decoder) {
        (Err(error), _) if is_before_stream(error) => (0, 0),
        (_, Some(decoder)) => (decoder.orders(), decoder.pixels()),
        (_, None) => (0, 0),
    };
    format!("paused={paused}\nformat={format}\n")
        + &refusal(came.as_ref().err())
        + &format!("orders={orders}\npixels={pixels}\nstate={state}\n")
        + &format!("target={}\n", hex(target))
}

/// Whether nothing of the stream was read, so that the counts are 0.
fn is_before_stream(error: &ResumeError) -> bool {
    match error {
        ResumeError::BadState => true,
        ResumeError::Refused(refusal) => matches!(
            refusal,
            Refusal::InvalidBpp { .. }
                | Refusal::EmptyImage
                | Refusal::DimensionsTooLarge { .. }
                | Refusal::BufferTooShort { .. }
        ),
    }
}

fn name(format: RlePixelFormat) -> &'static str {
    match format {
        RlePixelFormat::Rgb8 => "Rgb8",
        RlePixelFormat::Rgb15 => "Rgb15",
        RlePixelFormat::Rgb16 => "Rgb16",
        RlePixelFormat::Rgb24 => "Rgb24",
    }
}

fn written(state: State) -> String {
    let foreground = hex(&state.foreground);
    let insert = if state.insert { "yes" } else { "no" };
    let mark = if state.first_row { "on" } else { "off" };
    let (place, pixels, orders) = (state.bytes, state.pixels, state.orders);
    format!("{place},{pixels},{foreground},{insert},{mark},{orders}")
}
