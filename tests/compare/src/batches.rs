//! `trial`, and the checks that C calls, against the oracle: requests go in batches, answers are compared one by one.

use crate::program::Program;
use crate::show::difference;
use crate::tally::Tally;
use generate::requests::{framed, make, make_check};

/// A program that answers requests, the requests of a seed and an index, and the oracle's answer to each.
pub struct Side {
    pub name: &'static str,
    program: Program,
    make: fn(u64, u64) -> Vec<u8>,
    answer: fn(&[u8]) -> String,
}

impl Side {
    pub fn trial(program: Program) -> Side {
        Side { name: "trial", program, make, answer: oracle::trial::answer }
    }

    /// The exported checks, behind `tests/c/answers.c`.
    pub fn checks(program: Program) -> Side {
        Side { name: "the checks from C", program, make: make_check, answer: oracle::trial::check_answer }
    }
}

/// The answer at the front of an output: up to its dot, or all there is.
fn cut(output: &str) -> (&str, &str) {
    let end = if output.starts_with(".\n") { 2 } else { output.find("\n.\n").map_or(output.len(), |at| at + 3) };
    output.split_at(end)
}

/// The program's answers to a batch, each compared with the oracle's; `name` tells the requests apart.
pub fn compare(
    side: &Side,
    requests: &[Vec<u8>],
    name: impl Fn(usize) -> String,
    tally: &mut Tally,
) -> Result<Vec<String>, String> {
    let output = side.program.run(&framed(requests))?;
    let output = String::from_utf8_lossy(&output);
    let mut rest = &output[..];
    let mut answers = Vec::new();
    for (place, request) in requests.iter().enumerate() {
        let expected = (side.answer)(request);
        let (found, after) = cut(rest);
        if found != expected {
            return Err(difference(&name(place), request, &expected, found));
        }
        tally.count(&expected);
        answers.push(expected);
        rest = after;
    }
    if !rest.is_empty() {
        let last = requests.last().map_or(&[][..], |request| request);
        return Err(difference(&format!("{}, after its last answer", side.name), last, "", rest));
    }
    Ok(answers)
}

/// So many requests of a seed, in batches.
pub fn run(side: &Side, seed: u64, count: u64, batch: u64, tally: &mut Tally) -> Result<(), String> {
    for first in (0..count).step_by(batch as usize) {
        let indices = first..count.min(first + batch);
        let requests: Vec<_> = indices.map(|index| (side.make)(seed, index)).collect();
        let name = |place: usize| format!("{}, seed {seed}, request {}", side.name, first + place as u64);
        compare(side, &requests, name, tally)?;
    }
    Ok(())
}

/// Runs that end inside a request: the whole ones are answered, the rest is malformed.
pub fn cut_runs(side: &Side, seed: u64, tally: &mut Tally) -> Result<(), String> {
    let requests = [(side.make)(seed, 0), (side.make)(seed, 16)];
    let (whole, first) = (framed(&requests), 4 + requests[0].len());
    for length in [0, 1, 3, 4, first, first + 2, first + 4, whole.len() - 1] {
        let input = &whole[..length];
        let (expected, found) = (oracle::trial::answers(input, side.answer), side.program.run(input)?);
        let found = String::from_utf8_lossy(&found);
        if expected != found {
            return Err(difference(&format!("{}, a run cut at {length}", side.name), input, &expected, &found));
        }
        expected.split_inclusive(".\n").for_each(|answer| tally.count(answer));
    }
    Ok(())
}
