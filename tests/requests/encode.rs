//! Requests about the encoder.

use crate::answers::{hex, refusal, Answer};
use crate::block::Block;
use nulambiro::compress_into;

/// The stream of a picture: `width=`, `height=`, `bpp=`, `pixels=`, and `output=` as it is before.
/// Answered are the stream's length and the whole output afterwards.
pub fn encode(case: &Block) -> Answer {
    let [width, height, bpp] = ["width", "height", "bpp"].map(|key| case.number(key));
    let mut output = case.bytes("output");
    let result = compress_into(&case.bytes("pixels"), &mut output, width, height, bpp);
    let length = *result.as_ref().unwrap_or(&0);
    Answer {
        text: refusal(result.as_ref().err())
            + &format!("length={length}\noutput={}\n", hex(&output)),
        in_part: false,
    }
}
