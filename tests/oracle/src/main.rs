//! `oracle groups` and `oracle trial`: the same input and output as the programs of those names. `oracle checks`: those of
//! `tests/c/answers.c`. `oracle faults` lists the deliberate faults, `oracle call-faults` those that `trial` can meet, `oracle
//! check-faults` those that C can.

use std::io::{Read, Write};

fn input() -> Vec<u8> {
    let mut input = Vec::new();
    std::io::stdin().read_to_end(&mut input).expect("standard input can be read");
    input
}

fn main() {
    let text = match std::env::args().nth(1).as_deref() {
        Some("groups") => oracle::groups::groups(&input()),
        Some("trial") => oracle::trial::answers(&input(), oracle::trial::answer),
        Some("checks") => oracle::trial::answers(&input(), oracle::trial::check_answer),
        Some("faults") => oracle::faults::names().join("\n") + "\n",
        Some("call-faults") => oracle::faults::of_calls().join("\n") + "\n",
        Some("check-faults") => oracle::faults::IN_CHECKS.join("\n") + "\n",
        _ => {
            eprintln!("usage: oracle groups|trial|checks|faults|call-faults|check-faults");
            std::process::exit(2);
        }
    };
    std::io::stdout().write_all(text.as_bytes()).expect("standard output can be written");
}
