//! The row to show.

use crate::DEPTHS;
use nulambiro::row_to_show;

const NEW: u8 = 1;
const SCREEN: u8 = 2;

#[test]
fn row_is_new_exactly_where_it_is_wholly_painted() {
    for (bpp, size) in DEPTHS {
        for (width, height) in [(1, 1), (1, 5), (4, 2), (3, 3), (7, 1)] {
            let len = width * height * size;
            let new: Vec<u8> = (0..len).map(|i| i as u8).collect();
            let screen: Vec<u8> = (0..len).map(|i| !(i as u8)).collect();
            for pixels in 0..=width * height + 2 {
                for row in 0..height {
                    let from = if (row + 1) * width <= pixels {
                        &new
                    } else {
                        &screen
                    };
                    let expected = &from[row * width * size..][..width * size];
                    let shown = row_to_show(&new, pixels, &screen, bpp, width, height, row);
                    assert_eq!(shown, expected);
                    // A part of the slice itself, and no copy.
                    assert_eq!(shown.as_ptr(), expected.as_ptr());
                }
            }
        }
    }
}

#[test]
fn row_with_its_last_pixel_missing_is_that_on_screen() {
    let (new, screen) = ([NEW; 8], [SCREEN; 8]);
    assert_eq!(row_to_show(&new, 7, &screen, 8, 4, 2, 0), [NEW; 4]);
    assert_eq!(row_to_show(&new, 7, &screen, 8, 4, 2, 1), [SCREEN; 4]);
    assert_eq!(row_to_show(&new, 8, &screen, 8, 4, 2, 1), [NEW; 4]);
}

#[test]
fn longer_slices_show_the_same() {
    let (new, screen) = ([NEW; 100], [SCREEN; 9]);
    assert_eq!(row_to_show(&new, 4, &screen, 8, 4, 2, 1), [SCREEN; 4]);
    assert_eq!(row_to_show(&new, usize::MAX, &screen, 8, 4, 2, 1), [NEW; 4]);
}

#[test]
fn bad_numbers_show_nothing() {
    let (new, screen) = ([NEW; 24], [SCREEN; 24]);
    let shown =
        |bpp, width, height, row| row_to_show(&new, 8, &screen, bpp, width, height, row).len();
    assert_eq!(shown(24, 4, 2, 1), 12);
    for bpp in [0, 7, 32, 264, usize::MAX] {
        assert_eq!(shown(bpp, 4, 2, 1), 0);
    }
    for side in [0, 8193, usize::MAX] {
        assert_eq!(shown(8, side, 2, 0), 0);
        assert_eq!(shown(8, 4, side, 0), 0);
    }
    for row in [2, 3, usize::MAX - 1, usize::MAX] {
        assert_eq!(shown(8, 4, 2, row), 0);
    }
}

#[test]
fn slice_shorter_than_the_picture_shows_nothing() {
    let (new, screen) = ([NEW; 16], [SCREEN; 16]);
    assert_eq!(row_to_show(&new[..15], 8, &screen, 15, 4, 2, 0), []);
    assert_eq!(row_to_show(&new, 8, &screen[..15], 15, 4, 2, 0), []);
    assert_eq!(row_to_show(&new, 8, &screen, 15, 4, 2, 0), [NEW; 8]);
}

#[test]
fn empty_part_is_one_of_the_new_picture() {
    let (new, screen) = ([NEW; 8], [SCREEN; 8]);
    // A good row with no pixel painted would be one on screen.
    let shown = row_to_show(&new, 0, &screen, 8, 4, 2, 2);
    assert_eq!((shown.as_ptr(), shown.len()), (new.as_ptr(), 0));
}

#[test]
fn last_row_of_the_largest_picture_is_shown() {
    let len = 8192 * 8192;
    let (new, screen) = (vec![NEW; len], vec![SCREEN; len]);
    assert_eq!(
        row_to_show(&new, len, &screen, 8, 8192, 8192, 8191),
        [NEW; 8192]
    );
    assert_eq!(
        row_to_show(&new, len - 1, &screen, 8, 8192, 8192, 8191),
        [SCREEN; 8192]
    );
}
