//! Times the encoder beside the plain rule and, where `PEERS` is set, beside xrdp's and FreeRDP's,
//! on tiles, plans and the inputs that are worst for it, and prints tables. Only the ratios within
//! one run mean something: above 1, the library is faster.
//!
//! Argument: the number of rounds; the best one counts. `bench/run encode` builds and calls it.

mod common;
mod peers;
#[path = "../differential/encoder/pictures.rs"]
mod pictures;
// Its bound is not needed here.
#[allow(dead_code)]
#[path = "../differential/encoder/rule.rs"]
mod rule;

use common::{fastest, random, rounds, Random, DEPTHS};
use nulambiro::{compress_bound, compress_into, decompress_into};
use peers::{for_peers, Peers, Sizes, ROOM};
use pictures::{
    all_different, copies, longest_stream, lose_by_one, noise, one_color, photo, plan, threes,
    twos, Shape,
};
use std::hint::black_box;

const TILE: usize = 64;
const SMALL: usize = 2048;
const LARGE: usize = 8192;

/// Pictures of one size and depth that are timed together.
struct Load {
    pictures: Vec<Vec<u8>>,
    side: usize,
    bpp: usize,
    bytes_per_pixel: usize,
}

impl Load {
    fn bytes(&self) -> usize {
        self.pictures.iter().map(Vec::len).sum()
    }

    /// Encodes every picture into this output; returns the lengths of the streams.
    fn lengths(&self, output: &mut [u8]) -> Vec<usize> {
        let encode = |pixels: &Vec<u8>| self.length(pixels, output);
        self.pictures.iter().map(encode).collect()
    }

    fn length(&self, pixels: &[u8], output: &mut [u8]) -> usize {
        let length = compress_into(black_box(pixels), output, self.side, self.side, self.bpp);
        length.expect("an output with room")
    }

    fn encode(&self, output: &mut [u8]) {
        for pixels in &self.pictures {
            self.length(pixels, output);
        }
    }

    /// Encodes into outputs just as long as the streams, which have to be measured first.
    fn encode_exactly(&self, lengths: &[usize], output: &mut [u8]) {
        for (pixels, length) in self.pictures.iter().zip(lengths) {
            self.length(pixels, &mut output[..*length]);
        }
    }

    fn encode_by_rule(&self) {
        for pixels in &self.pictures {
            black_box(rule::encode(
                black_box(pixels),
                self.side,
                self.bytes_per_pixel,
            ));
        }
    }

    /// The streams are those of the rule, and give the pictures back.
    fn check(&self) {
        let mut output = vec![0; compress_bound(self.side, self.side, self.bpp)];
        for pixels in &self.pictures {
            let length = self.length(pixels, &mut output);
            let stream = &output[..length];
            let due = rule::encode(pixels, self.side, self.bytes_per_pixel);
            assert!(stream == due, "the stream is not that of the rule");
            let mut picture = vec![0; pixels.len()];
            let report = decompress_into(stream, &mut picture, self.side, self.side, self.bpp);
            assert!(report.outcome.is_ok() && picture == *pixels);
        }
    }

    /// The pictures cut into tiles.
    fn tiles(&self) -> Self {
        let mut pictures = Vec::new();
        let (row, part) = (
            self.side * self.bytes_per_pixel,
            TILE * self.bytes_per_pixel,
        );
        for pixels in &self.pictures {
            for (top, left) in (0..self.side / TILE)
                .flat_map(|top| (0..self.side / TILE).map(move |left| (top, left)))
            {
                let line = |y| &pixels[(top * TILE + y) * row + left * part..][..part];
                pictures.push((0..TILE).flat_map(line).copied().collect());
            }
        }
        Self {
            pictures,
            side: TILE,
            ..*self
        }
    }

    /// What the outside encoders take in place of the pictures.
    fn for_peers(&self) -> Vec<Vec<u8>> {
        let turned = |pixels: &Vec<u8>| for_peers(pixels, self.side, self.bytes_per_pixel);
        self.pictures.iter().map(turned).collect()
    }

    fn sizes(&self) -> Sizes {
        Sizes {
            width: self.side,
            height: self.side,
            bpp: self.bpp,
        }
    }
}

/// One picture of a kind.
fn picture(
    side: usize,
    (bpp, bytes_per_pixel): (usize, usize),
    paint: impl FnOnce(Shape) -> Vec<u8>,
) -> Load {
    let shape = Shape {
        width: side,
        height: side,
        bytes_per_pixel,
    };
    Load {
        pictures: vec![paint(shape)],
        side,
        bpp,
        bytes_per_pixel,
    }
}

/// A function of [`Peers`] that encodes one picture.
type Encoder = fn(&Peers, &[u8], Sizes, &mut [u8]) -> Option<usize>;

/// Encodes every picture by an outside encoder; returns the bytes of all streams, `None` where
/// there is no such encoder, or it refuses one.
fn encode_outside(
    peers: Option<&Peers>,
    encode: Encoder,
    (rows, sizes): (&[Vec<u8>], Sizes),
    output: &mut [u8],
) -> Option<usize> {
    let peers = peers?;
    let one = |rows: &Vec<u8>| encode(peers, black_box(rows), sizes, output);
    rows.iter().map(one).sum()
}

/// A number, or a dash where there is none.
fn cell(number: Option<f64>) -> String {
    number.map_or_else(|| String::from("-"), |number| format!("{number:.2}"))
}

/// A row of the table of tiles and plans. The outside encoders take no large picture, so they have
/// its tiles: their time for all of these stands beside the library's for the whole picture.
fn compare(name: &str, load: &Load, peers: Option<&Peers>, rounds: usize) {
    load.check();
    let tiles = load.tiles();
    let rows = tiles.for_peers();
    let outside = |encode: Encoder, output: &mut [u8]| {
        encode_outside(peers, encode, (&rows, tiles.sizes()), output)
    };
    let mut output = vec![0; compress_bound(load.side, load.side, load.bpp)];
    let (mut exact, mut room) = (output.clone(), [vec![0; 4 * ROOM], vec![0; 4 * ROOM]]);
    let lengths = load.lengths(&mut output);
    let sizes = [
        Some(lengths.iter().sum()),
        Some(tiles.lengths(&mut output).iter().sum()),
        outside(Peers::encode_by_xrdp, &mut room[0]),
        outside(Peers::encode_by_freerdp, &mut room[1]),
    ];
    let [for_xrdp, for_freerdp] = &mut room;
    let [library, measured, by_rule, by_xrdp, by_freerdp] = fastest(
        rounds,
        [
            &mut || load.encode(&mut output),
            &mut || load.encode_exactly(&lengths, &mut exact),
            &mut || load.encode_by_rule(),
            &mut || _ = outside(Peers::encode_by_xrdp, for_xrdp),
            &mut || _ = outside(Peers::encode_by_freerdp, for_freerdp),
        ],
    );
    let there = |size: usize, seconds: f64| sizes[size].map(|_| seconds / library);
    let shrunk = |bytes: usize| load.bytes() as f64 / bytes as f64;
    let shrunk = sizes.map(|bytes: Option<usize>| cell(bytes.map(shrunk)));
    println!(
        "| {name} | {} | {:.0} | {:.2} | {:.1} | {} | {} | {} |",
        load.bpp,
        load.bytes() as f64 / library / 1e6,
        measured / library,
        by_rule / library,
        cell(there(2, by_xrdp)),
        cell(there(3, by_freerdp)),
        shrunk.join(" | ")
    );
}

/// A way to paint a picture, with its name.
type Kind = (&'static str, fn(&mut Random, Shape) -> Vec<u8>);

/// What takes longest for each pixel, if anything does: the longest stretches one after the other,
/// equal and as those above; stretches that are measured for nothing; the shortest runs; no
/// stretches; and a plan beside them.
const WORST: [Kind; 10] = [
    ("plan", plan),
    ("one color", one_color),
    ("copies of a row", copies),
    ("stretches that lose by one", |_, shape| lose_by_one(shape)),
    ("stretches of two", |_, shape| twos(shape)),
    ("stretches of three", |_, shape| threes(shape)),
    ("noise", noise),
    ("photo", photo),
    ("no pixel as another beside it", |_, shape| {
        all_different(shape)
    }),
    ("longest stream", |_, shape| longest_stream(shape)),
];

/// Nanoseconds for each pixel.
fn time_per_pixel(kind: Kind, side: usize, depth: (usize, usize), rounds: usize) -> f64 {
    let mut random = Random::new(1);
    let load = picture(side, depth, |shape| kind.1(&mut random, shape));
    let mut output = vec![0; compress_bound(side, side, depth.0)];
    let [seconds] = fastest(rounds, [&mut || load.encode(&mut output)]);
    seconds / (side * side) as f64 * 1e9
}

fn growth(rounds: usize) {
    println!("\nNanoseconds a pixel, and the growth from {SMALL} x {SMALL} to {LARGE} x {LARGE}\n");
    println!("| picture | bpp | {SMALL}² | {LARGE}² | growth |");
    println!("|---|---|---|---|---|");
    for kind in WORST {
        for depth in DEPTHS.into_iter().filter(|depth| depth.0 != 15) {
            let small = time_per_pixel(kind, SMALL, depth, 3 * rounds);
            let large = time_per_pixel(kind, LARGE, depth, rounds);
            println!(
                "| {} | {} | {small:.3} | {large:.3} | {:.2} |",
                kind.0,
                depth.0,
                large / small
            );
        }
    }
}

fn main() {
    let rounds = rounds();
    let peers = Peers::load();
    println!("Megabytes of picture a second, the time of others divided by the library's, and the");
    println!("picture's bytes divided by those of the streams\n");
    println!(
        "| picture | bpp | MB/s | measured first | plain rule | xrdp | FreeRDP | smaller by \
         | as tiles | xrdp | FreeRDP |"
    );
    println!("|---|---|---|---|---|---|---|---|---|---|---|");
    for depth in DEPTHS {
        let mut random = Random::new(9);
        // Tiles from all over a plan.
        let whole = picture(SMALL, depth, |shape| plan(&mut random, shape));
        compare(
            "1024 tiles of a plan",
            &whole.tiles(),
            peers.as_ref(),
            3 * rounds,
        );
        compare("plan 2048²", &whole, peers.as_ref(), rounds);
    }
    for depth in DEPTHS {
        let mut random = Random::new(9);
        let whole = picture(LARGE, depth, |shape| plan(&mut random, shape));
        compare("plan 8192²", &whole, peers.as_ref(), rounds);
    }
    growth(rounds);
}
