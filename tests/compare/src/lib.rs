//! Holds the programs `trial` and `groups`, and the checks that C calls, against the oracle, answer by answer.

pub mod batches;
pub mod inputs;
pub mod program;
pub mod show;
pub mod swaps;
pub mod tally;
