//! Runs the library's encoder beside a plain one, and has its streams decoded by the unchanged
//! `rle.rs` and by the library; stops at the first difference.
//!
//! Arguments: short, long, valgrind or peers, and a seed. The script `../run` builds and calls it.
#![deny(unsafe_code)]

#[path = "../answer.rs"]
mod answer;
// Targets belong to the decoder's cases.
#[allow(dead_code)]
#[path = "../case.rs"]
mod case;
mod check;
// Of the package's C interface only the declaration is needed here.
#[allow(dead_code, unsafe_code)]
#[path = "../../rust/src/ffi_encoder.rs"]
mod ffi_encoder;
mod groups;
mod heap;
#[path = "../lent.rs"]
mod lent;
#[allow(unsafe_code)]
mod library;
#[path = "../limits.rs"]
mod limits;
// Of the oracle only the decoding is needed here.
#[allow(dead_code)]
#[path = "../oracle.rs"]
mod oracle;
mod outside;
#[allow(unsafe_code)]
#[path = "../../bench/peers.rs"]
mod peers;
mod pictures;
#[path = "../../rust/tests/common/random.rs"]
mod random;
mod rule;
#[path = "../same.rs"]
mod same;
mod shrink;
mod subject;

use groups::{Mode, Run};
use std::env;
use std::process::exit;

fn main() {
    let arguments: Vec<String> = env::args().skip(1).collect();
    let mode = match arguments.first().map(String::as_str) {
        Some("short") => Mode::Short,
        Some("long") => Mode::Long,
        Some("valgrind") => Mode::Valgrind,
        Some("peers") => Mode::Peers,
        _ => usage(),
    };
    let Some(Ok(seed)) = arguments.get(1).map(|word| word.parse()) else {
        usage();
    };
    println!("{} with seed {seed}", arguments[0]);
    let pictures = Run::new(mode, seed).all();
    println!("total: {pictures} pictures, no difference");
}

fn usage() -> ! {
    eprintln!("usage: encoder short|long|valgrind|peers SEED");
    exit(2);
}
