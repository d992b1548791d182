//! Gives the cases of a folder to the package, and compares its answers with those that are due.
//!
//! `NN-name.in` has the inputs of request NN and `NN-name.out` the answers, block by block in the
//! same order, an empty line between two blocks. The script `run` builds and calls this program.
#![forbid(unsafe_code)]

mod answers;
mod block;
mod colors;
mod encode;
mod orders;
mod pauses;
mod same;

use answers::{hex, Answer};
use block::{bytes, Block};
use std::path::Path;
use std::process::exit;
use std::{env, fs};

/// The files of a folder, with what answers a case of each.
const FILES: [(&str, fn(&Block) -> Answer); 6] = [
    ("02-expand", colors::expand),
    ("04-encode", encode::encode),
    ("05-look", colors::look),
    ("06-record", orders::record),
    ("08-same", same::same),
    ("09-pause", pauses::pause),
];

fn main() {
    let Some(folder) = env::args().nth(1) else {
        eprintln!("usage: requests FOLDER");
        exit(2);
    };
    let mut wrong = 0;
    for (name, answer) in FILES {
        wrong += compare(Path::new(&folder), name, answer);
    }
    exit(i32::from(wrong > 0));
}

/// Compares the answers to all cases of a file, and returns how many are wrong.
fn compare(folder: &Path, name: &str, answer: fn(&Block) -> Answer) -> usize {
    let (inputs, dues) = (
        read(&folder.join(format!("{name}.in"))),
        read(&folder.join(format!("{name}.out"))),
    );
    let (inputs, dues) = (blocks(&inputs), blocks(&dues));
    if inputs.is_empty() || inputs.len() != dues.len() {
        stop(&format!(
            "{name}: {} cases, {} answers",
            inputs.len(),
            dues.len()
        ));
    }
    let (mut wrong, mut in_part) = (0, 0);
    for (number, (input, due)) in inputs.iter().zip(&dues).enumerate() {
        let given = answer(&Block::new(input));
        in_part += usize::from(given.in_part);
        if given.text.trim_end() != written_out(due) {
            wrong += 1;
            let text = given.text;
            println!("{name}, case {number}\n{input:.400}\ndue:\n{due:.400}\ngiven:\n{text:.400}");
        }
    }
    let cases = inputs.len();
    println!("{name}: {cases} cases, {in_part} of them compared in part, {wrong} wrong");
    wrong
}

/// An answer that is due, with `output=` and `target=` pair by pair: the files may have them in
/// pieces, as inputs are. What the package does not tell, the bytes read and the last kind, in a
/// state behind its six numbers, is left out.
fn written_out(due: &str) -> String {
    let line = |line: &str| match line.split_once('=') {
        Some(("read" | "last", _)) => None,
        Some((key @ ("output" | "target"), pieces)) => {
            Some(format!("{key}={}", hex(&bytes(pieces))))
        }
        Some((key @ "state", words)) => {
            let words: Vec<&str> = words.split(',').take(6).collect();
            Some(format!("{key}={}", words.join(",")))
        }
        _ => Some(line.to_string()),
    };
    due.lines().filter_map(line).collect::<Vec<_>>().join("\n")
}

fn read(path: &Path) -> String {
    fs::read_to_string(path).unwrap_or_else(|error| stop(&format!("{}: {error}", path.display())))
}

fn blocks(text: &str) -> Vec<&str> {
    text.split("\n\n")
        .map(str::trim)
        .filter(|block| !block.is_empty())
        .collect()
}

/// Ends the program: what is to be compared is not there, or can't be read.
pub(crate) fn stop(message: &str) -> ! {
    eprintln!("requests: {message}");
    exit(1);
}
