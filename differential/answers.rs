//! Writes the stored answers that the program `replay` compares with: for each stream of the files
//! named, what the unchanged `rle.rs` answers.
//!
//! Arguments: the file to write, and the files to read. These have lines `width=`, `height=`,
//! `bpp=` and `stream=` as a tile text has them; a line holds until the next of its kind, and each
//! `stream=` makes a record. Other lines are passed over. The script `answers` builds and calls it.

mod answer;
mod case;
mod oracle;

use case::{Case, Picture};
use std::collections::BTreeSet;
use std::env;
use std::fs;
use std::process::exit;

/// The most that `replay` holds: bytes of all records, and of one target.
const MOST_RECORDS: usize = 262_144;
const MOST_TARGET: usize = 65_536;
/// Longer streams would take the room of many short ones.
const MOST_STREAM: usize = 1_024;

struct Tile {
    picture: Picture,
    stream: Vec<u8>,
}

/// The tiles of a file; a line that cannot be read ends the program.
fn tiles(file: &str) -> Vec<Tile> {
    let text = fs::read_to_string(file).unwrap_or_else(|error| fail(&format!("{file}: {error}")));
    let mut picture = Picture {
        width: 0,
        height: 0,
        bpp: 0,
    };
    let mut found = Vec::new();
    for line in text.lines() {
        let Some((key, value)) = line.split_once('=') else {
            continue;
        };
        let number = || {
            let number = value.parse();
            number.unwrap_or_else(|_| fail(&format!("{file}: no number in {line}")))
        };
        match key {
            "width" => picture.width = number(),
            "height" => picture.height = number(),
            "bpp" => picture.bpp = number(),
            "stream" => {
                let stream = bytes_of_pairs(value);
                let stream = stream.unwrap_or_else(|| fail(&format!("{file}: no bytes in {line}")));
                found.push(Tile { picture, stream });
            }
            _ => {}
        }
    }
    found
}

fn bytes_of_pairs(digits: &str) -> Option<Vec<u8>> {
    let pair = |at| u8::from_str_radix(digits.get(at..at + 2)?, 16).ok();
    (0..digits.len()).step_by(2).map(pair).collect()
}

fn fits(tile: &Tile) -> bool {
    let Picture { width, height, bpp } = tile.picture;
    tile.stream.len() <= MOST_STREAM
        && tile.picture.target_len() <= MOST_TARGET
        && [width, height, bpp]
            .map(u32::try_from)
            .iter()
            .all(Result::is_ok)
}

/// A record, as the source of `replay` describes it.
fn record(Tile { picture, stream }: &Tile) -> Vec<u8> {
    let case = Case {
        stream,
        picture: *picture,
    };
    let mut targets = oracle::OLD.map(|old| vec![old; picture.target_len()]);
    let [answer, _] = targets
        .each_mut()
        .map(|target| oracle::decode(case, target));
    let numbers = [
        picture.width as u64,
        picture.height as u64,
        picture.bpp as u64,
        answer.format,
        answer.refusal,
        answer.first,
        answer.second,
        oracle::pixels(case, &targets) as u64,
        oracle::orders(case, &mut targets[1]) as u64,
        checksum(&targets[0]),
        stream.len() as u64,
    ];
    let four_bytes = |number| {
        u32::try_from(number)
            .expect("a number of four bytes")
            .to_le_bytes()
    };
    let mut record: Vec<u8> = numbers.into_iter().flat_map(four_bytes).collect();
    record.extend(stream);
    record
}

fn checksum(target: &[u8]) -> u64 {
    let add = |sum, byte: &u8| (sum * 16_777_619 + u64::from(*byte) + 1) % 4_294_967_291;
    target.iter().fold(0, add)
}

fn fail(message: &str) -> ! {
    eprintln!("answers: {message}");
    exit(1);
}

fn main() {
    let mut arguments = env::args().skip(1);
    let Some(out) = arguments.next() else {
        fail("usage: answers OUT FILE...");
    };
    let mut records = Vec::new();
    let mut seen = BTreeSet::new();
    for tile in arguments.flat_map(|file| tiles(&file)).filter(fits) {
        let record = record(&tile);
        if records.len() + record.len() <= MOST_RECORDS && seen.insert(record.clone()) {
            records.extend(record);
        }
    }
    fs::write(&out, &records).unwrap_or_else(|error| fail(&format!("{out}: {error}")));
    // What `replay` prints where all answers are those stored.
    println!("{} streams, 0 differ", seen.len());
}
