//! `compare --trial COMMAND --groups COMMAND [--seed S] [--requests N] [--batch B] [--inputs N] [--swaps N]`, or
//! `compare --checks COMMAND [--seed S] [--requests N] [--batch B]` for the checks that C calls.
//! Exits with 1 at the first difference, and when some refusal or the most groups were never reached.

use compare::batches::{self, Side};
use compare::program::Program;
use compare::tally::{Tally, OF_CHECKS, OF_PROGRAMS};
use compare::{inputs, swaps};
use std::collections::BTreeMap;
use std::process::ExitCode;

struct Options(BTreeMap<String, String>);

impl Options {
    /// Options as names and values, or what is wrong with them.
    fn read() -> Result<Options, String> {
        let known = ["trial", "groups", "checks", "seed", "requests", "batch", "inputs", "swaps"];
        let words: Vec<String> = std::env::args().skip(1).collect();
        let pair = |pair: &[String]| {
            let name = pair[0].strip_prefix("--").filter(|name| known.contains(name));
            match (name, pair.get(1)) {
                (Some(name), Some(value)) => Ok((name.to_string(), value.clone())),
                _ => Err(format!("not understood: {}", pair.join(" "))),
            }
        };
        words.chunks(2).map(pair).collect::<Result<_, _>>().map(Options)
    }

    fn number(&self, name: &str, usual: u64) -> Result<u64, String> {
        match self.0.get(name) {
            Some(value) => value.parse().map_err(|_| format!("--{name} wants a number")),
            None => Ok(usual),
        }
    }

    fn program(&self, name: &str) -> Result<Program, String> {
        match self.0.get(name) {
            Some(command) => Ok(Program::new(command)),
            None => Err(format!("name a program: --{name} COMMAND")),
        }
    }
}

fn programs(options: &Options) -> Result<(), String> {
    let (trial, groups) = (Side::trial(options.program("trial")?), options.program("groups")?);
    let seed = options.number("seed", 1)?;
    let mut tally = Tally::default();
    batches::run(&trial, seed, options.number("requests", 3200)?, options.number("batch", 160)?.max(1), &mut tally)?;
    batches::cut_runs(&trial, seed, &mut tally)?;
    swaps::run(&trial, seed, options.number("swaps", 200)?, &mut tally)?;
    inputs::run(&groups, seed, options.number("inputs", 400)?, &mut tally)?;
    tally.print();
    tally.missing(&OF_PROGRAMS).map_or(Ok(()), Err)
}

fn checks(options: &Options) -> Result<(), String> {
    let checks = Side::checks(options.program("checks")?);
    let seed = options.number("seed", 1)?;
    let mut tally = Tally::default();
    batches::run(&checks, seed, options.number("requests", 4000)?, options.number("batch", 400)?.max(1), &mut tally)?;
    batches::cut_runs(&checks, seed, &mut tally)?;
    tally.print_checks();
    tally.missing(&OF_CHECKS).map_or(Ok(()), Err)
}

fn run() -> Result<(), String> {
    let options = Options::read()?;
    if options.0.contains_key("checks") {
        checks(&options)
    } else {
        programs(&options)
    }
}

fn main() -> ExitCode {
    match run() {
        Ok(()) => ExitCode::SUCCESS,
        Err(message) => {
            println!("{message}");
            ExitCode::FAILURE
        }
    }
}
