//! States that are refused, each beside one that is just good.

use crate::{counts, tile, tile_from, ENDED, OLD, PAUSED};
use nulambiro::{Decoder, Refusal, ResumeError, State};

/// A state of a tile of 4 x 2 pixels that passes all tests with the stream [`STREAM`].
const GOOD: State = State {
    bytes: 1,
    pixels: 4,
    foreground: [0xFF, 0, 0],
    insert: false,
    first_row: false,
    orders: 1,
};

/// A foreground run of the first row, and a black pixel.
const STREAM: [u8; 2] = [0x24, 0xFE];

/// Going on from the state is refused, whatever the limit, and changes nothing.
fn assert_bad(mut decoder: Decoder, bytes: usize) {
    let (state, counted) = (decoder.state(), counts(&decoder));
    for limit in [0, 1, usize::MAX] {
        let mut target = vec![OLD; bytes];
        let progress = decoder.decode_some(&STREAM, &mut target, limit);
        assert_eq!(progress, Err(ResumeError::BadState), "{state:?}");
        assert!(target.iter().all(|byte| *byte == OLD), "{state:?}");
        assert_eq!((decoder.state(), counts(&decoder)), (state, counted));
    }
}

/// No order of [`STREAM`] is left, or the next one comes.
fn assert_good(state: State) {
    let progress = tile_from(state).decode_some(&STREAM, &mut [OLD; 8], 0);
    let due = if state.bytes < 2 { PAUSED } else { ENDED };
    assert_eq!(progress, due, "{state:?}");
}

#[test]
fn place_past_the_stream_is_refused() {
    for bytes in [0, 1, 2] {
        assert_good(State { bytes, ..GOOD });
    }
    for bytes in [3, 4, 256, 1 << 32, usize::MAX - 1, usize::MAX] {
        assert_bad(tile_from(State { bytes, ..GOOD }), 8);
    }
}

#[test]
fn pixels_past_the_picture_are_refused() {
    assert_good(State { pixels: 7, ..GOOD });
    assert_good(State { pixels: 8, ..GOOD });
    // The target has room for nine.
    for pixels in [9, 10, 264, 1 << 32, usize::MAX] {
        assert_bad(tile_from(State { pixels, ..GOOD }), 9);
    }
}

#[test]
fn more_orders_than_pixels_are_refused() {
    for orders in [0, 3, 4] {
        assert_good(State { orders, ..GOOD });
    }
    for orders in [5, 6, 1 << 32, usize::MAX] {
        assert_bad(tile_from(State { orders, ..GOOD }), 8);
    }
    let none = State {
        pixels: 0,
        first_row: true,
        ..GOOD
    };
    assert_good(State { orders: 0, ..none });
    assert_bad(tile_from(State { orders: 1, ..none }), 8);
}

#[test]
fn first_row_that_has_ended_unpainted_is_refused() {
    assert_good(GOOD);
    assert_bad(tile_from(State { pixels: 3, ..GOOD }), 8);
    let none = State {
        pixels: 0,
        orders: 0,
        ..GOOD
    };
    assert_bad(tile_from(none), 8);
    // While it has not ended, every count is good, past it too.
    for pixels in [1, 3, 4, 5, 8] {
        assert_good(State {
            pixels,
            first_row: true,
            ..GOOD
        });
    }
}

#[test]
fn foreground_with_a_byte_that_the_depth_does_not_use_is_refused() {
    for (bpp, used) in [(8, 1), (15, 2), (16, 2), (24, 3)] {
        for place in 0..3 {
            for byte in [1, 0x80, 0xFF] {
                let mut state = GOOD;
                state.foreground = [0; 3];
                state.foreground[place] = byte;
                let mut decoder = Decoder::resume(4, 2, bpp, state).expect("a good size");
                if place < used {
                    let progress = decoder.decode_some(&STREAM, &mut [OLD; 24], 0);
                    assert_eq!(progress, PAUSED, "{bpp} bits, {state:?}");
                } else {
                    assert_bad(decoder, 24);
                }
            }
        }
    }
}

#[test]
fn short_target_is_refused_before_the_state() {
    let bad = State { bytes: 3, ..GOOD };
    for (given, state) in [(0, GOOD), (7, GOOD), (0, bad), (7, bad)] {
        let mut target = vec![OLD; given];
        let mut decoder = tile_from(state);
        let short = Refusal::BufferTooShort { needed: 8, given };
        for limit in [0, 1, usize::MAX] {
            let progress = decoder.decode_some(&STREAM, &mut target, limit);
            assert_eq!(progress, Err(ResumeError::Refused(short.clone())));
            assert!(target.iter().all(|byte| *byte == OLD));
            assert_eq!((decoder.state(), counts(&decoder)), (state, (1, 4)));
        }
    }
    // A longer one gives no more room.
    let mut longer = [OLD; 100];
    let progress = tile_from(GOOD).decode_some(&[0x24, 0x05], &mut longer, 1);
    let past = Refusal::InvalidImageSize {
        maximum_additional: 4,
        required_additional: 5,
    };
    assert_eq!(progress, Err(ResumeError::Refused(past)));
}

#[test]
fn depth_and_sizes_are_refused_with_the_decoder() {
    for ((width, height, bpp), refusal) in [
        ((0, 9000, 9), Refusal::InvalidBpp { bpp: 9 }),
        ((0, 9000, 8), Refusal::EmptyImage),
        ((4, 0, 8), Refusal::EmptyImage),
        (
            (8193, 2, 8),
            Refusal::DimensionsTooLarge {
                width: 8193,
                height: 2,
            },
        ),
    ] {
        let bad = State {
            bytes: usize::MAX,
            ..GOOD
        };
        let made = [
            Decoder::new(width, height, bpp),
            Decoder::resume(width, height, bpp, GOOD),
            Decoder::resume(width, height, bpp, bad),
        ];
        for decoder in made {
            assert_eq!(decoder.map(|decoder| decoder.state()), Err(refusal.clone()));
        }
    }
    for (width, height) in [(1, 8192), (8192, 1), (8192, 8192)] {
        assert!(Decoder::new(width, height, 24).is_ok());
    }
}

#[test]
fn state_is_tested_before_the_stream() {
    let mut decoder = tile_from(State { pixels: 3, ..GOOD });
    let progress = decoder.decode_some(&[0x24, 0xFF], &mut [OLD; 8], 1);
    assert_eq!(progress, Err(ResumeError::BadState));
}

#[test]
fn state_of_another_stream_or_picture_may_be_refused() {
    let mut decoder = tile();
    let mut target = [OLD; 8];
    assert_eq!(
        decoder.decode_some(&[0x24, 0x22, 0xFE], &mut target, 2),
        PAUSED
    );
    let state = decoder.state();
    let shorter = decoder.decode_some(&[0x24], &mut target, 1);
    assert_eq!(shorter, Err(ResumeError::BadState));
    let mut smaller = Decoder::resume(5, 1, 8, state).expect("a good size");
    let progress = smaller.decode_some(&[0x24, 0x22, 0xFE], &mut target, 1);
    assert_eq!(progress, Err(ResumeError::BadState));
}

#[test]
fn messages_say_what_was_wrong() {
    let short = Refusal::BufferTooShort {
        needed: 8,
        given: 7,
    };
    for (error, message) in [
        (ResumeError::from(short.clone()), short.to_string()),
        (
            ResumeError::BadState,
            String::from(
                "decoding cannot go on from this state: it is none of this stream and this picture",
            ),
        ),
    ] {
        let error: Box<dyn std::error::Error> = Box::new(error);
        assert_eq!(error.to_string(), message);
    }
}
