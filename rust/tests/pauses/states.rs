//! The states in which decoding pauses, and going on from them.

use crate::{counts, tile, tile_from, ENDED, OLD, PAUSED};
use nulambiro::{Decoder, State};

/// The state behind so many orders of a stream of a tile.
fn behind(stream: &[u8], limit: usize) -> State {
    let mut decoder = tile();
    let progress = decoder.decode_some(stream, &mut [OLD; 8], limit);
    assert_eq!(progress, PAUSED, "{stream:02x?}");
    decoder.state()
}

#[test]
fn start_has_the_white_of_the_depth() {
    for (bpp, foreground) in [
        (8, [0xFF, 0, 0]),
        (15, [0xFF, 0x7F, 0]),
        (16, [0xFF, 0xFF, 0]),
        (24, [0xFF, 0xFF, 0xFF]),
        (9, [0, 0, 0]),
    ] {
        let start = State {
            bytes: 0,
            pixels: 0,
            foreground,
            insert: false,
            first_row: true,
            orders: 0,
        };
        assert_eq!(State::start(bpp), start);
        if bpp != 9 {
            let decoder = Decoder::new(4, 2, bpp).expect("a good size");
            assert_eq!(decoder.state(), start);
            assert_eq!(counts(&decoder), (0, 0));
        }
    }
}

#[test]
fn pause_leaves_bytes_pixels_foreground_insert_row_and_orders() {
    // A set-foreground run of three pixels, a background run of one, and one of two.
    let stream = [0xC3, 7, 0x01, 0x02, 0xFE];
    let first = State {
        bytes: 2,
        pixels: 3,
        foreground: [7, 0, 0],
        insert: false,
        first_row: true,
        orders: 1,
    };
    assert_eq!(behind(&stream, 1), first);
    let second = State {
        bytes: 3,
        pixels: 4,
        insert: true,
        orders: 2,
        ..first
    };
    assert_eq!(behind(&stream, 2), second);
    let third = State {
        bytes: 4,
        pixels: 6,
        first_row: false,
        orders: 3,
        ..second
    };
    assert_eq!(behind(&stream, 3), third);
}

#[test]
fn first_row_ends_only_at_an_order() {
    // The run passes the first row; the pixel behind it begins past that.
    assert!(behind(&[0x26, 0xFE, 0xFE], 1).first_row);
    assert!(!behind(&[0x26, 0xFE, 0xFE], 2).first_row);
    assert!(behind(&[0x24, 0xFE, 0xFE], 1).first_row);
    assert!(!behind(&[0x24, 0xFE, 0xFE], 2).first_row);
    assert!(behind(&[0x23, 0xFE, 0xFE], 2).first_row);
}

#[test]
fn insert_that_the_end_of_the_first_row_drops_is_in_the_state() {
    let stream = [0x04, 0x01, 0xFE];
    let state = behind(&stream, 1);
    assert!(state.insert && state.first_row);
    let mut target = [0; 8];
    let progress = tile_from(state).decode_some(&stream, &mut target, 1);
    assert_eq!((progress, target), (PAUSED, [0; 8]));
}

#[test]
fn insert_goes_over_a_pause() {
    let stream = [0x02, 0x02];
    let mut target = [OLD; 8];
    let mut decoder = tile();
    assert_eq!(decoder.decode_some(&stream, &mut target, 1), PAUSED);
    assert_eq!(decoder.decode_some(&stream, &mut target, 1), ENDED);
    assert_eq!(target, [0, 0, 0xFF, 0, OLD, OLD, OLD, OLD]);
}

#[test]
fn foreground_of_every_byte_goes_over_a_pause() {
    // A set-foreground run of a pixel, and a foreground run of one.
    let stream = [0xC1, 0x12, 0x34, 0x56, 0x21];
    let mut target = [OLD; 6];
    let mut decoder = Decoder::new(2, 1, 24).expect("a good size");
    assert_eq!(decoder.decode_some(&stream, &mut target, 1), PAUSED);
    assert_eq!(decoder.state().foreground, [0x12, 0x34, 0x56]);
    let kept = decoder.state();
    let mut decoder = Decoder::resume(2, 1, 24, kept).expect("a good size");
    assert!(decoder.decode_some(&stream, &mut target, 1).is_ok());
    assert_eq!(target, [0x12, 0x34, 0x56, 0x12, 0x34, 0x56]);
}

#[test]
fn kept_state_is_gone_on_from_more_than_once() {
    let stream = [0x24, 0x62, 7, 0x22];
    let mut target = [OLD; 8];
    let mut decoder = tile();
    assert_eq!(decoder.decode_some(&stream, &mut target, 2), PAUSED);
    let kept = decoder.state();
    let painted = target;
    for _ in 0..3 {
        target = painted;
        let mut again = tile_from(kept);
        assert_eq!(counts(&again), (2, 6));
        assert_eq!(again.decode_some(&stream, &mut target, 9), ENDED);
        assert_eq!(counts(&again), (3, 8));
        assert_eq!(target, [0xFF, 0xFF, 0xFF, 0xFF, 7, 7, 0, 0]);
    }
    assert_eq!(decoder.state(), kept);
}

#[test]
fn state_that_no_stream_leads_to_is_gone_on_from() {
    // An insert without an order, pixels without bytes: a row of the target counts as painted.
    let state = State {
        bytes: 1,
        pixels: 4,
        foreground: [0x0F, 0, 0],
        insert: true,
        first_row: false,
        orders: 0,
    };
    let mut target = [1, 2, 3, 4, OLD, OLD, OLD, OLD];
    let mut decoder = tile_from(state);
    // A background run of two pixels behind a byte that is not read.
    let progress = decoder.decode_some(&[0xFF, 0x02], &mut target, 1);
    assert_eq!((progress, counts(&decoder)), (ENDED, (1, 6)));
    assert_eq!(target, [1, 2, 3, 4, 0x0E, 2, OLD, OLD]);
}
