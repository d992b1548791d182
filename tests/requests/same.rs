//! Requests about same picture.

use crate::answers::Answer;
use crate::block::Block;
use crate::colors::own_bits;
use nulambiro::{expand, same_picture, Picture};

/// Whether two pictures are the same: `bpp1=`, `width1=`, `height1=`, `pixels1=`, `bytes1=`, the
/// same with 2, `palette=`.
///
/// Cases with `stored=no` are due by the colors alone, whatever the depths and the bits that have no
/// color. There a yes of the package has to be due; after a no, its colors decide.
pub fn same(case: &Block) -> Answer {
    let palette = case.bytes("palette");
    let bytes = ["bytes1", "bytes2"].map(|key| case.bytes(key));
    let [a, b] = [1, 2].map(|of| Picture {
        bytes: &bytes[of - 1],
        pixels: case.number(&format!("pixels{of}")),
        width: case.number(&format!("width{of}")),
        height: case.number(&format!("height{of}")),
        bpp: case.number(&format!("bpp{of}")),
    });
    let by_colors = case.find("stored") == Some("no");
    let same = same_picture(&a, &b, &palette)
        || by_colors && same_colors(&a, &b, &palette, case.find("rule"));
    Answer {
        text: format!("same={}\n", if same { "yes" } else { "no" }),
        in_part: by_colors,
    }
}

/// Whether two valid pictures agree in sizes, count and colors. A valid picture is one that is the
/// same as itself.
fn same_colors(a: &Picture, b: &Picture, palette: &[u8], rule: Option<&str>) -> bool {
    let numbers = |p: &Picture| [p.width, p.height, p.pixels];
    [a, b].iter().all(|p| same_picture(p, p, palette))
        && numbers(a) == numbers(b)
        && (0..a.pixels).all(|k| color(a, k, palette, rule) == color(b, k, palette, rule))
}

/// The color of pixel k of a valid picture, by the bits that come from the pixel itself where the
/// rule is that of the base.
fn color(p: &Picture, k: usize, palette: &[u8], rule: Option<&str>) -> Option<[u8; 3]> {
    let size = p.bpp.div_ceil(8);
    let byte = |i: usize| if i < size { p.bytes[k * size + i] } else { 0 };
    let color = expand([byte(0), byte(1), byte(2)], p.bpp, palette).ok()?;
    let masks = own_bits(rule, p.bpp);
    Some([0, 1, 2].map(|i| color[i] & masks[i]))
}
