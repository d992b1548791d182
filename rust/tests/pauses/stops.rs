//! Where calls stop, and what they give together.

use crate::random::Random;
use crate::{counts, tile, tile_from, ENDED, OLD, PAUSED};
use nulambiro::{decompress_into, picture_len, Decoder, Progress, Refusal, ResumeError, State};

#[test]
fn pause_comes_behind_as_many_orders_as_wanted() {
    let stream = [0xFE; 8];
    for limit in 1..8 {
        let mut decoder = tile();
        let mut target = [OLD; 8];
        assert_eq!(decoder.decode_some(&stream, &mut target, limit), PAUSED);
        assert_eq!(counts(&decoder), (limit, limit));
        assert!(target[..limit].iter().all(|byte| *byte == 0));
        assert!(target[limit..].iter().all(|byte| *byte == OLD));
    }
}

#[test]
fn end_of_the_stream_is_no_pause() {
    let stream = [0x24, 0xFE];
    for limit in [2, 3, 256, 1 << 32, usize::MAX] {
        let mut decoder = tile();
        let progress = decoder.decode_some(&stream, &mut [OLD; 8], limit);
        assert_eq!((progress, counts(&decoder)), (ENDED, (2, 5)));
        assert_eq!(decoder.state(), State::start(8));
    }
}

#[test]
fn empty_stream_has_ended() {
    for limit in [0, 1, usize::MAX] {
        let mut target = [OLD; 8];
        let mut decoder = tile();
        assert_eq!(decoder.decode_some(&[], &mut target, limit), ENDED);
        assert_eq!((counts(&decoder), target), ((0, 0), [OLD; 8]));
    }
}

#[test]
fn limit_of_zero_pauses_at_once() {
    let stream = [0x24, 0xFE];
    let mut decoder = tile();
    let mut target = [OLD; 8];
    assert_eq!(decoder.decode_some(&stream, &mut target, 0), PAUSED);
    assert_eq!(decoder.state(), State::start(8));
    assert_eq!((counts(&decoder), target), ((0, 0), [OLD; 8]));

    assert_eq!(decoder.decode_some(&stream, &mut target, 1), PAUSED);
    let (state, painted) = (decoder.state(), target);
    assert_eq!(decoder.decode_some(&stream, &mut target, 0), PAUSED);
    assert_eq!((decoder.state(), target), (state, painted));
    assert_eq!(counts(&decoder), (1, 4));
    // Also before an order that is refused.
    let progress = decoder.decode_some(&[0x24, 0xFF], &mut target, 0);
    assert_eq!((progress, decoder.state()), (PAUSED, state));
    // The stream ends where the state stands.
    assert_eq!(decoder.decode_some(&[0x24], &mut target, 0), ENDED);
}

#[test]
fn counts_are_those_from_the_start() {
    let stream = [0xFE; 8];
    let mut decoder = tile();
    let mut target = [OLD; 8];
    for (limit, orders) in [(1, 1), (3, 4), (0, 4), (2, 6)] {
        assert_eq!(decoder.decode_some(&stream, &mut target, limit), PAUSED);
        assert_eq!(counts(&decoder), (orders, orders));
    }
    assert_eq!(decoder.decode_some(&stream, &mut target, 2), ENDED);
    assert_eq!(counts(&decoder), (8, 8));
}

#[test]
fn refusal_comes_in_the_call_of_its_order() {
    let stream = [0x24, 0xFE, 0xFF];
    let refused = Err(ResumeError::Refused(Refusal::BadOrderCode));
    let mut decoder = tile();
    let mut target = [OLD; 8];
    assert_eq!(decoder.decode_some(&stream, &mut target, 2), PAUSED);
    let state = decoder.state();
    for limit in [1, 2, usize::MAX] {
        let progress = decoder.decode_some(&stream, &mut target, limit);
        assert_eq!((&progress, counts(&decoder)), (&refused, (2, 5)));
        assert_eq!(decoder.state(), state);
    }
}

#[test]
fn pixels_before_a_refusal_are_counted() {
    // A foreground/background image of twelve pixels, of which there is one mask.
    let stream = [0xFE, 0x40, 0x0B, 0x81];
    let missing = ResumeError::Refused(Refusal::NotEnoughBytes {
        expected: 1,
        actual: 0,
    });
    let mut decoder = Decoder::new(20, 1, 8).expect("a good size");
    let mut target = [OLD; 20];
    assert_eq!(decoder.decode_some(&stream, &mut target, 1), PAUSED);
    let state = decoder.state();
    assert_eq!((state.orders, state.pixels), (1, 1));
    assert_eq!(
        decoder.decode_some(&stream, &mut target, 1),
        Err(missing.clone())
    );
    assert_eq!((counts(&decoder), decoder.state()), ((1, 9), state));
    assert_eq!(target[..10], [0, 0xFF, 0, 0, 0, 0, 0, 0, 0xFF, OLD]);
}

#[test]
fn bytes_behind_the_painted_pixels_stay_in_each_call() {
    let stream = [0x24, 0x21, 0x61, 7];
    let mut target: Vec<u8> = (1..=12).collect();
    let mut decoder = tile();
    assert_eq!(decoder.decode_some(&stream, &mut target, 1), PAUSED);
    assert_eq!(target[4..], [5, 6, 7, 8, 9, 10, 11, 12]);
    assert_eq!(decoder.decode_some(&stream, &mut target, 1), PAUSED);
    assert_eq!(target[5..], [6, 7, 8, 9, 10, 11, 12]);
    assert_eq!(decoder.decode_some(&stream, &mut target, 1), ENDED);
    assert_eq!(target, [0xFF, 0xFF, 0xFF, 0xFF, 0, 7, 7, 8, 9, 10, 11, 12]);
}

#[test]
fn what_is_drawn_behind_the_painted_pixels_is_painted_over() {
    let stream = [0x24, 0x22, 0x02];
    let mut target = [OLD; 8];
    let mut decoder = tile();
    while decoder.decode_some(&stream, &mut target, 1) == PAUSED {
        target[decoder.pixels()..].fill(0x2A);
    }
    assert_eq!(target, [0xFF, 0xFF, 0xFF, 0xFF, 0, 0, 0xFF, 0xFF]);
}

#[test]
fn orders_look_at_the_pixels_of_the_calls_before() {
    let stream = [0x24, 0x22];
    let mut target = [OLD; 8];
    let mut decoder = tile();
    assert_eq!(decoder.decode_some(&stream, &mut target, 1), PAUSED);
    // What the premise forbids: a painted pixel is written, and shows in the row below.
    target[1] = 0xF0;
    assert_eq!(decoder.decode_some(&stream, &mut target, 1), ENDED);
    assert_eq!(target[..6], [0xFF, 0xF0, 0xFF, 0xFF, 0x00, 0x0F]);
}

#[test]
fn decoder_at_the_end_answers_again() {
    let stream = [0x24, 0x22, 0x21];
    let mut target = [OLD; 8];
    let mut decoder = tile();
    assert_eq!(decoder.decode_some(&stream, &mut target, 1), PAUSED);
    for _ in 0..3 {
        assert_eq!(decoder.decode_some(&stream, &mut target, 2), ENDED);
        assert_eq!(counts(&decoder), (3, 7));
        assert_eq!(target, [0xFF, 0xFF, 0xFF, 0xFF, 0, 0, 0, OLD]);
    }
}

/// Orders by chance, most of them good and short.
fn stream(random: &mut Random) -> Vec<u8> {
    let mut stream = vec![];
    for _ in 0..random.below(30) {
        if random.one_in(3) {
            stream.push(random.range(1, 3) as u8);
        } else {
            stream.push(random.byte());
        }
    }
    stream
}

#[test]
fn wherever_calls_pause_all_give_what_one_gives() {
    let mut random = Random::new(9);
    let (mut pauses, mut ends, mut refusals) = (0, 0, 0);
    for _ in 0..2_000 {
        let (width, height) = (random.range(1, 40), random.range(1, 30));
        let bpp = random.pick(&[8, 15, 16, 24]);
        let stream = stream(&mut random);
        let len = picture_len(width, height, bpp).expect("a good size");
        let mut whole = vec![OLD; len];
        let report = decompress_into(&stream, &mut whole, width, height, bpp);

        let mut target = vec![OLD; len];
        let mut decoder = Decoder::new(width, height, bpp).expect("a good size");
        let progress = loop {
            let limit = random.below(4);
            let before = decoder.orders();
            let progress = decoder.decode_some(&stream, &mut target, limit);
            let painted = decoder.pixels() * bpp.div_ceil(8);
            assert_eq!(target[..painted], whole[..painted]);
            assert!(target[painted..].iter().all(|byte| *byte == OLD));
            if progress != PAUSED {
                break progress;
            }
            assert_eq!(decoder.orders(), before + limit);
            let state = decoder.state();
            assert_eq!((state.orders, state.pixels), counts(&decoder));
            decoder = Decoder::resume(width, height, bpp, state).expect("a good size");
            pauses += 1;
        };
        assert_eq!(counts(&decoder), (report.orders, report.pixels));
        match report.outcome {
            Ok(format) => {
                assert_eq!(progress, Ok(Progress::Ended(format)));
                ends += 1;
            }
            Err(refusal) => {
                assert_eq!(progress, Err(ResumeError::Refused(refusal)));
                refusals += 1;
            }
        }
    }
    // None of these is compared by luck alone.
    assert!(pauses > 1_000 && ends > 100 && refusals > 100);
}

#[test]
fn state_at_the_end_of_a_stream_has_ended() {
    let end = State {
        bytes: 2,
        pixels: 5,
        foreground: [0xFF, 0, 0],
        insert: false,
        first_row: true,
        orders: 2,
    };
    for limit in [0, 1, usize::MAX] {
        let mut target = [OLD; 8];
        let mut decoder = tile_from(end);
        let progress = decoder.decode_some(&[0x24, 0xFE], &mut target, limit);
        assert_eq!((progress, counts(&decoder)), (ENDED, (2, 5)));
        assert_eq!(target, [OLD; 8]);
    }
}
