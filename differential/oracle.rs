//! The unchanged `rle.rs`. It counts neither pixels nor orders, but both can be told from what it
//! does.

use crate::answer::{answer, Answer};
use crate::case::{Case, Picture};

/// Old bytes that differ in every bit: two targets that held them agree where they were painted.
pub const OLD: [u8; 2] = [0x55, 0xAA];

pub fn decode(case: Case, target: &mut Vec<u8>) -> Answer {
    let Picture { width, height, bpp } = case.picture;
    answer!(
        rle,
        rle::decompress(case.stream, target, width, height, bpp)
    )
}

/// Pixels painted in two targets that held different old bytes.
pub fn pixels(case: Case, [first, second]: &[Vec<u8>; 2]) -> usize {
    let painted = first.iter().zip(second).take_while(|(a, b)| a == b).count();
    painted / case.picture.bytes_per_pixel().unwrap_or(1)
}

/// Orders completed: each makes exactly one nonempty prefix of the stream that is decoded.
pub fn orders(case: Case, target: &mut Vec<u8>) -> usize {
    let decoded = |end: &usize| {
        let stream = &case.stream[..*end];
        decode(Case { stream, ..case }, target).refusal == 0
    };
    (1..=case.stream.len()).filter(decoded).count()
}
