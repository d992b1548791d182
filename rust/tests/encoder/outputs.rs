//! What a call does to the output it is lent, and what it looks at of the pixels.

use crate::{counting_wide, DEPTHS, OLD};
use nulambiro::{compress, compress_bound, compress_into, CompressError};

#[test]
fn bytes_after_the_stream_stay() {
    let pixels = [7, 7, 7, 7, 7, 7, 7, 9];
    for more in [0, 1, 2, 5, 6, 100] {
        let mut output = vec![OLD; 4 + more];
        assert_eq!(compress_into(&pixels, &mut output, 4, 2, 8), Ok(4));
        assert_eq!(output[..4], [0x67, 7, 0x81, 9]);
        assert!(output[4..].iter().all(|byte| *byte == OLD));
    }
}

#[test]
fn stream_does_not_depend_on_the_old_bytes() {
    for (bpp, size) in DEPTHS {
        let pixels = counting_wide(40, size);
        let room = compress_bound(8, 5, bpp) + 3;
        let (mut zeros, mut ones) = (vec![0x00; room], vec![0xFF; room]);
        let length = compress_into(&pixels, &mut zeros, 8, 5, bpp).expect("a good picture");
        assert_eq!(compress_into(&pixels, &mut ones, 8, 5, bpp), Ok(length));
        assert_eq!(zeros[..length], ones[..length]);
        assert!(zeros[length..].iter().all(|byte| *byte == 0x00));
        assert!(ones[length..].iter().all(|byte| *byte == 0xFF));
    }
}

#[test]
fn output_just_as_long_as_the_stream_is_enough() {
    // An image of 40 pixels is the longest stream there is, a color run of them is not.
    for (bpp, size) in DEPTHS {
        for pixels in [counting_wide(40, size), vec![7; 40 * size]] {
            let stream = compress(&pixels, 8, 5, bpp).expect("a good picture");
            let mut exact = vec![OLD; stream.len()];
            assert_eq!(
                compress_into(&pixels, &mut exact, 8, 5, bpp),
                Ok(stream.len())
            );
            assert_eq!(exact, stream);
            let mut short = vec![OLD; stream.len() - 1];
            assert_eq!(
                compress_into(&pixels, &mut short, 8, 5, bpp),
                Err(CompressError::OutputTooShort)
            );
            assert!(short.iter().all(|byte| *byte == OLD));
        }
    }
}

#[test]
fn pixels_past_the_picture_are_not_looked_at() {
    // More equal pixels, and others, follow the picture's last row.
    for rest in [[7; 6], [8; 6]] {
        let pixels = [&[1, 7, 7, 7][..], &rest].concat();
        assert_eq!(compress(&pixels, 2, 2, 8), Ok(vec![0x81, 1, 0x63, 7]));
    }
}
