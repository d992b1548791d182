//! All orders of a stream, one after the other.

use crate::headers::place;
use crate::random::Random;
use crate::{completed, record, DEPTHS};
use nulambiro::{order_record, order_records, LengthPlace};
use std::collections::HashMap;

/// Headers whose length stands in one byte, in two, or nowhere.
const RARE: [u8; 20] = [
    0x00, 0x20, 0x40, 0x60, 0x80, 0xC0, 0xD0, 0xE0, 0xF0, 0xF1, 0xF2, 0xF3, 0xF4, 0xF6, 0xF7, 0xF8,
    0xF9, 0xFA, 0xFD, 0xFE,
];

/// Orders by chance. Half of them are of the rarer places, with a small length after the header.
fn stream(random: &mut Random) -> Vec<u8> {
    let mut stream = vec![];
    for _ in 0..random.below(20) {
        if random.one_in(2) {
            stream.extend([random.pick(&RARE), random.below(40) as u8, 0]);
        } else {
            stream.push(random.byte());
        }
    }
    stream
}

#[test]
fn walk_gives_the_record_of_every_number() {
    let mut random = Random::new(6);
    let mut found = HashMap::new();
    for _ in 0..300 {
        for (bpp, _) in DEPTHS {
            let (width, height) = (random.range(1, 70), random.range(1, 40));
            let stream = stream(&mut random);
            let records: Vec<_> = order_records(&stream, width, height, bpp).collect();
            assert_eq!(records.len(), completed(&stream, (width, height, bpp)));
            for (n, record) in records.iter().enumerate() {
                let by_number = order_record(&stream, width, height, bpp, n);
                assert_eq!(by_number, Some(*record), "{stream:02x?}, order {n}");
                assert_eq!(Some(record.place), place(record.header));
                *found.entry(record.place).or_insert(0) += 1;
            }
            let past = record(&stream, (width, height, bpp), records.len());
            assert_eq!(past, None, "{stream:02x?}");
        }
    }
    // Each place occurs often, so none is compared by luck alone.
    assert_eq!(found.len(), 4);
    assert!(found.values().all(|count| *count >= 100), "{found:?}");
}

#[test]
fn prefix_of_a_stream_has_the_first_records() {
    let mut random = Random::new(7);
    for _ in 0..100 {
        let stream = stream(&mut random);
        let whole: Vec<_> = order_records(&stream, 40, 20, 16).collect();
        for end in 0..stream.len() {
            let records: Vec<_> = order_records(&stream[..end], 40, 20, 16).collect();
            assert!(whole.starts_with(&records));
        }
    }
}

#[test]
fn walk_that_has_ended_stays_so() {
    // At the end of the stream, at one that is refused, and where the depth is.
    for (stream, bpp, count) in [(&[0x24][..], 8, 1), (&[0x24, 0xFF], 8, 1), (&[0x24], 9, 0)] {
        let mut records = order_records(stream, 4, 2, bpp);
        assert_eq!(records.by_ref().count(), count);
        for _ in 0..3 {
            assert_eq!(records.next(), None);
        }
    }
}

#[test]
fn copy_of_a_walk_goes_on_by_itself() {
    let mut records = order_records(&[0x24, 0xF1, 0x02, 0x00, 0xFE], 4, 2, 8);
    records.next();
    let copy = records.clone();
    assert_eq!(records.by_ref().count(), 2);
    let headers: Vec<u8> = copy.map(|record| record.header).collect();
    assert_eq!(headers, [0xF1, 0xFE]);
}

#[test]
fn bytes_left_bound_the_orders_left() {
    let mut records = order_records(&[0x24, 0xF1, 0x02, 0x00, 0xFE], 4, 2, 8);
    for left in [5, 4, 1, 0] {
        assert_eq!(records.size_hint(), (0, Some(left)));
        records.next();
    }
    assert_eq!(records.size_hint(), (0, Some(0)));
    // A stream that is refused keeps its bytes.
    let mut refused = order_records(&[0xFE, 0xFF, 0xFE], 4, 2, 8);
    assert_eq!(refused.by_ref().count(), 1);
    assert_eq!(refused.size_hint(), (0, Some(2)));
}

#[test]
fn bound_is_reached_by_orders_of_one_byte() {
    let records = order_records(&[0xFE; 8], 4, 2, 8);
    assert_eq!(records.size_hint().1, Some(8));
    assert_eq!(records.count(), 8);
}

#[test]
fn number_far_past_the_end_is_passed_at_the_end() {
    let mut records = order_records(&[0x24, 0x01], 4, 2, 8);
    assert_eq!(records.nth(usize::MAX), None);
    assert_eq!(records.next(), None);
}

#[test]
fn million_orders_are_walked_at_once() {
    // From the start for each of them, this would take hours.
    let stream = vec![0xFE; 1 << 20];
    let records = order_records(&stream, 1024, 1024, 8);
    let black = records.filter(|record| record.place == LengthPlace::None);
    assert_eq!(black.count(), 1 << 20);
}
