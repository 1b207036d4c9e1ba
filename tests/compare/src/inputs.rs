//! `groups` against the oracle, one input for each run.

use crate::program::Program;
use crate::show::difference;
use crate::tally::Tally;
use generate::inputs::make;

pub fn run(program: &Program, seed: u64, count: u64, tally: &mut Tally) -> Result<(), String> {
    for index in 0..count {
        let input = make(seed, index);
        let (expected, found) = (oracle::groups::groups(&input), program.run(&input)?);
        let found = String::from_utf8_lossy(&found);
        if expected != found {
            return Err(difference(&format!("groups, seed {seed}, input {index}"), &input, &expected, &found));
        }
        tally.count(&expected);
    }
    Ok(())
}
