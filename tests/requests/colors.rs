//! Requests about colors.

use crate::answers::{hex, refusal, Answer};
use crate::block::Block;
use crate::stop;

/// The color of one pixel: `bpp=`, `pixel=` of three bytes, `palette=`.
///
/// Cases with `rule=base` are due with zeros below the bits that come from the pixel itself, so at
/// 15 and 16 bits per pixel only those bits can be compared.
pub fn expand(case: &Block) -> Answer {
    let bpp = case.number("bpp");
    let color = nulambiro::expand(three(case, "pixel"), bpp, &case.bytes("palette"));
    let masks = own_bits(case.find("rule"), bpp);
    let triple = match &color {
        Ok(color) => hex(&[0, 1, 2].map(|i| color[i] & masks[i])),
        Err(_) => String::from("none"),
    };
    Answer {
        text: refusal(color.as_ref().err()) + &format!("triple={triple}\n"),
        in_part: masks != [0xFF; 3],
    }
}

/// The bits of a color to compare: where the rule is that of the base, those that come from the
/// pixel itself.
pub(crate) fn own_bits(rule: Option<&str>, bpp: usize) -> [u8; 3] {
    match (rule, bpp) {
        (Some("base"), 15) => [0xF8, 0xF8, 0xF8],
        (Some("base"), 16) => [0xF8, 0xFC, 0xF8],
        _ => [0xFF; 3],
    }
}

/// The index of a color, `triple=`, in `palette=`: the lowest, and all that have it.
///
/// All of them are found by looking again after the entry that was found has got another color.
pub fn look(case: &Block) -> Answer {
    let mut palette = case.bytes("palette");
    let triple = three(case, "triple");
    let all: Vec<String> = (0..256)
        .map_while(|_| {
            let index = nulambiro::palette_look(&palette, triple)?;
            palette[3 * usize::from(index)] ^= 1;
            Some(index.to_string())
        })
        .collect();
    let lowest = all.first().map_or("none", String::as_str);
    Answer {
        text: format!("index={lowest}\nall={}\n", all.join(",")),
        in_part: false,
    }
}

/// The three bytes of a pixel or a color.
fn three(case: &Block, key: &str) -> [u8; 3] {
    <[u8; 3]>::try_from(&*case.bytes(key))
        .unwrap_or_else(|_| stop(&format!("{key} has three bytes")))
}
