//! Runs the library beside the unchanged `rle.rs`, the records of a stream's orders beside a plain
//! reader, and calls that pause beside one that does not; stops at the first difference.
//!
//! Arguments: short, long or valgrind, and a seed. The script `run` builds and calls it.
#![deny(unsafe_code)]

mod answer;
mod case;
mod check;
// Of the package's C interface only the declarations are needed here.
#[allow(dead_code, unsafe_code)]
#[path = "../rust/src/ffi.rs"]
mod ffi;
#[allow(dead_code, unsafe_code)]
#[path = "../rust/src/ffi_orders.rs"]
mod ffi_orders;
#[allow(dead_code, unsafe_code)]
#[path = "../rust/src/ffi_pauses.rs"]
mod ffi_pauses;
mod groups;
mod heap;
mod lent;
#[allow(unsafe_code)]
mod library;
mod limits;
mod oracle;
mod pauses;
#[path = "../rust/tests/common/random.rs"]
mod random;
mod records;
mod same;
mod shrink;
mod states;
mod streams;
mod walks;

use groups::{Mode, Run};
use std::env;
use std::process::exit;

fn main() {
    let arguments: Vec<String> = env::args().skip(1).collect();
    let mode = match arguments.first().map(String::as_str) {
        Some("short") => Mode::Short,
        Some("long") => Mode::Long,
        Some("valgrind") => Mode::Valgrind,
        _ => usage(),
    };
    let Some(Ok(seed)) = arguments.get(1).map(|word| word.parse()) else {
        usage();
    };
    println!("{} with seed {seed}", arguments[0]);
    let (streams, records, pauses) = Run::new(mode, seed).all();
    println!(
        "total: {streams} streams, {records} records of orders and {pauses} pauses, no difference"
    );
}

fn usage() -> ! {
    eprintln!("usage: differential short|long|valgrind SEED");
    exit(2);
}
