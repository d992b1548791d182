//! Same picture.

use crate::random::Random;
use crate::DEPTHS;
use nulambiro::{expand, same_picture, Picture};

/// The rule: the stored bytes of a valid picture's painted pixels, none of another picture.
fn painted<'a>(p: &Picture<'a>, palette: &[u8]) -> Option<&'a [u8]> {
    let size = DEPTHS.iter().find(|depth| depth.0 == p.bpp)?.1;
    let sides = 1..=8192;
    if !sides.contains(&p.width) || !sides.contains(&p.height) {
        return None;
    }
    if p.bytes.len() < p.width * p.height * size || p.width * p.height < p.pixels {
        return None;
    }
    if p.bpp == 8 && palette.len() < 768 {
        return None;
    }
    Some(&p.bytes[..p.pixels * size])
}

fn rule(a: &Picture, b: &Picture, palette: &[u8]) -> bool {
    let numbers = |p: &Picture| [p.bpp, p.width, p.height, p.pixels];
    let both = painted(a, palette).zip(painted(b, palette));
    both.is_some_and(|(x, y)| x == y && numbers(a) == numbers(b))
}

/// A palette all of whose entries are alike: pixels that differ have the same color.
const ALIKE: [u8; 768] = [9; 768];

/// A row of pixels, so many of them painted.
fn row(bytes: &[u8], pixels: usize, bpp: usize, size: usize) -> Picture<'_> {
    Picture {
        bytes,
        pixels,
        width: bytes.len() / size,
        height: 1,
        bpp,
    }
}

#[test]
fn pictures_follow_the_rule() {
    let mut random = Random::new(3);
    let mut alike = 0;
    for _ in 0..20_000 {
        let (bpp, size) = random.pick(&DEPTHS);
        let (width, height) = (random.range(1, 20), random.range(1, 12));
        let pixels = random.below(width * height + 1);
        let len = width * height * size + random.below(3);
        let mut bytes = random.bytes(len);
        let a = Picture {
            bytes: &bytes.clone(),
            pixels,
            width,
            height,
            bpp,
        };
        // Most of the time one bit changes, perhaps after the painted pixels.
        if !random.one_in(4) {
            let at = random.below(bytes.len());
            bytes[at] ^= 1 << random.below(8);
        }
        let mut b = Picture { bytes: &bytes, ..a };
        if random.one_in(8) {
            b.bpp = random.pick(&DEPTHS).0;
        }
        let expected = rule(&a, &b, &ALIKE);
        assert_eq!(same_picture(&a, &b, &ALIKE), expected, "{a:?} {b:?}");
        alike += usize::from(expected);
    }
    assert!((8000..14000).contains(&alike), "{alike} of 20000 are alike");
}

#[test]
fn byte_counts_exactly_if_it_is_painted() {
    for (bpp, size) in DEPTHS {
        for pixels in 0..=200 / size {
            let bytes = vec![0x55; (pixels + 3) * size];
            let a = row(&bytes, pixels, bpp, size);
            assert!(same_picture(&a, &a, &ALIKE));
            for at in 0..bytes.len() {
                let mut changed = bytes.clone();
                changed[at] ^= 0x80;
                let b = row(&changed, pixels, bpp, size);
                let past = at >= pixels * size;
                assert_eq!(same_picture(&a, &b, &ALIKE), past, "{pixels} painted, {at}");
            }
        }
    }
}

#[test]
fn spare_bit_of_a_painted_pixel_counts() {
    let (plain, marked) = ([0x1F, 0x7C], [0x1F, 0xFC]);
    let color = |[low, high]: [u8; 2]| expand([low, high, 0], 15, &[]);
    assert_eq!(color(plain), color(marked));
    let of = |bytes, pixels| row(bytes, pixels, 15, 2);
    assert!(!same_picture(&of(&plain, 1), &of(&marked, 1), &[]));
    assert!(same_picture(&of(&plain, 0), &of(&marked, 0), &[]));
    assert!(same_picture(&of(&marked, 1), &of(&marked, 1), &[]));
}

#[test]
fn depths_of_the_same_bytes_differ() {
    let bytes = [0; 24];
    for pixels in [0, 1, 8] {
        for (bpp, _) in DEPTHS {
            for (other, _) in DEPTHS {
                let of = |bpp| Picture {
                    bytes: &bytes,
                    pixels,
                    width: 4,
                    height: 2,
                    bpp,
                };
                let same = same_picture(&of(bpp), &of(other), &ALIKE);
                assert_eq!(same, bpp == other, "{bpp} and {other}, {pixels} painted");
            }
        }
    }
}

#[test]
fn every_number_of_a_picture_counts() {
    let mut random = Random::new(4);
    let bytes = [7; 64];
    let numbers = [0, 1, 2, 3, 4, 6, 8, 12, 15, 16, 24, 8192, 8193, usize::MAX];
    let mut any = || random.pick(&numbers);
    let mut pictures = vec![];
    for _ in 0..400 {
        pictures.push(Picture {
            bytes: &bytes,
            pixels: any(),
            width: any(),
            height: any(),
            bpp: [8, 15, 16, 24, any()][any() % 5],
        });
    }
    let mut alike = 0;
    for a in &pictures {
        for b in &pictures {
            let expected = rule(a, b, &ALIKE);
            assert_eq!(same_picture(a, b, &ALIKE), expected, "{a:?} {b:?}");
            alike += usize::from(expected);
        }
    }
    assert!(alike > 0, "no two of the pictures are alike");
}

#[test]
fn slice_needs_space_for_the_whole_picture() {
    let bytes = [5; 25];
    for (bpp, size) in DEPTHS {
        let of = |len: usize| Picture {
            bytes: &bytes[..len],
            pixels: 0,
            width: 4,
            height: 2,
            bpp,
        };
        let (short, whole, more) = (of(8 * size - 1), of(8 * size), of(8 * size + 1));
        assert!(same_picture(&whole, &whole, &ALIKE));
        assert!(same_picture(&whole, &more, &ALIKE));
        assert!(same_picture(&more, &whole, &ALIKE));
        for other in [&short, &whole, &more] {
            assert!(!same_picture(&short, other, &ALIKE));
            assert!(!same_picture(other, &short, &ALIKE));
        }
    }
}

#[test]
fn palette_is_needed_at_8_bits_alone() {
    let bytes = [0; 3];
    for (bpp, size) in DEPTHS {
        let picture = row(&bytes[..size], 0, bpp, size);
        assert!(same_picture(&picture, &picture, &ALIKE));
        for len in [0, 767] {
            let same = same_picture(&picture, &picture, &ALIKE[..len]);
            assert_eq!(same, bpp != 8, "{bpp} bits, palette of {len} bytes");
        }
    }
}

#[test]
fn counts_of_painted_pixels_agree() {
    let bytes = [0; 4];
    assert!(!same_picture(
        &row(&bytes, 2, 8, 1),
        &row(&bytes, 1, 8, 1),
        &ALIKE
    ));
}
