//! Palette look.

use crate::random::Random;
use nulambiro::palette_look;

/// The lowest of the entries that equal the color.
fn lowest(palette: &[u8], color: [u8; 3]) -> Option<u8> {
    (0..=u8::MAX).find(|i| palette[3 * usize::from(*i)..][..3] == color)
}

/// A palette of one color, but for the entries that have another.
fn palette_with(entries: &[usize], color: [u8; 3]) -> Vec<u8> {
    let mut palette = [9, 9, 9].repeat(256);
    for i in entries {
        palette[3 * i..][..3].copy_from_slice(&color);
    }
    palette
}

#[test]
fn every_entry_is_found() {
    let palette = Random::new(1).bytes(768);
    for entry in palette.chunks(3) {
        let color = [entry[0], entry[1], entry[2]];
        let found = palette_look(&palette, color).expect("an entry equals the color");
        assert_eq!(Some(found), lowest(&palette, color));
    }
}

#[test]
fn lowest_index_is_found_exactly_where_an_entry_equals() {
    let mut random = Random::new(2);
    for _ in 0..300 {
        // Few values, so that entries repeat and many colors are missing.
        let palette: Vec<u8> = (0..768).map(|_| random.byte() % 7).collect();
        for _ in 0..50 {
            let color = [random.byte() % 8, random.byte() % 8, random.byte() % 8];
            assert_eq!(palette_look(&palette, color), lowest(&palette, color));
        }
    }
}

#[test]
fn lowest_of_two_equal_entries_is_found() {
    for first in 0..255 {
        for second in [first + 1, 255] {
            let palette = palette_with(&[first, second], [1, 2, 3]);
            let found = palette_look(&palette, [1, 2, 3]);
            assert_eq!(found.map(usize::from), Some(first));
        }
    }
}

#[test]
fn lowest_of_many_equal_entries_is_found() {
    let palette = palette_with(&[40, 41, 90, 254, 255], [1, 2, 3]);
    assert_eq!(palette_look(&palette, [1, 2, 3]), Some(40));
    assert_eq!(palette_look(&palette, [9, 9, 9]), Some(0));
}

#[test]
fn one_entry_alone_is_found_at_every_index() {
    for index in 0..=u8::MAX {
        let palette = palette_with(&[usize::from(index)], [1, 2, 3]);
        assert_eq!(palette_look(&palette, [1, 2, 3]), Some(index));
    }
}

#[test]
fn first_is_found_where_all_entries_are_equal() {
    let palette = palette_with(&[], [0, 0, 0]);
    assert_eq!(palette_look(&palette, [9, 9, 9]), Some(0));
    assert_eq!(palette_look(&palette, [9, 9, 8]), None);
}

#[test]
fn bytes_after_the_last_entry_do_not_count() {
    let mut palette = palette_with(&[255], [1, 2, 3]);
    palette.extend([4, 5, 6]);
    assert_eq!(palette_look(&palette, [1, 2, 3]), Some(255));
    assert_eq!(palette_look(&palette, [4, 5, 6]), None);
}

#[test]
fn bytes_across_two_entries_are_no_entry() {
    let mut palette = [9; 768];
    palette[..6].copy_from_slice(&[1, 2, 3, 4, 5, 6]);
    assert_eq!(palette_look(&palette, [2, 3, 4]), None);
    assert_eq!(palette_look(&palette, [4, 5, 6]), Some(1));
}

#[test]
fn short_palette_has_no_entry() {
    for len in [0, 3, 767] {
        assert_eq!(palette_look(&vec![0; len], [0, 0, 0]), None);
    }
}
