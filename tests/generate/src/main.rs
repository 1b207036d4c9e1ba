//! `generate trial SEED COUNT` writes a run of requests, `generate checks SEED COUNT` one of calls 1 and 2, `generate groups
//! SEED INDEX` one input, `generate stored` the run that stands beside the program `trial`.

use generate::requests::{framed, make, make_check};
use std::io::Write;

/// A run of the first requests of a kind.
fn run(count: u64, make: impl Fn(u64) -> Vec<u8>) -> Vec<u8> {
    framed(&(0..count).map(make).collect::<Vec<_>>())
}

fn main() {
    let arguments: Vec<String> = std::env::args().skip(1).collect();
    let number = |place: usize| arguments.get(place).and_then(|word| word.parse::<u64>().ok());
    let bytes = match (arguments.first().map(String::as_str), number(1), number(2)) {
        (Some("trial"), Some(seed), Some(count)) => run(count, |index| make(seed, index)),
        (Some("checks"), Some(seed), Some(count)) => run(count, |index| make_check(seed, index)),
        (Some("groups"), Some(seed), Some(index)) => generate::inputs::make(seed, index),
        (Some("stored"), None, None) => generate::stored::run(),
        _ => {
            eprintln!("usage: generate trial SEED COUNT | checks SEED COUNT | groups SEED INDEX | stored");
            std::process::exit(2);
        }
    };
    std::io::stdout().write_all(&bytes).expect("standard output can be written");
}
