//! Entry numbers of the up and down tables, out of counts alone: the build and the sheet call
//! use the same ones.

use crate::book::{Grammar, Production};
use crate::faults::wrong;

/// How many choices of plausible groupings a production's children have.
pub fn choices(production: &Production, plausible: &[u8]) -> u64 {
    production.children.iter().map(|&child| plausible[child] as u64).product()
}

/// How many down entries a production has.
fn down_entries(production: &Production, plausible: &[u8], feasible: &[u8]) -> u64 {
    feasible[production.left] as u64 * choices(production, plausible)
}

/// A choice as a number: child 1's rank counts most, the last child's least.
pub fn choice(production: &Production, plausible: &[u8], ranks: &[u8]) -> u64 {
    let mut digits: Vec<(u8, u8)> =
        production.children.iter().zip(ranks).map(|(&child, &rank)| (plausible[child], rank)).collect();
    if wrong("weights-exchanged") {
        digits.reverse();
    }
    digits.iter().fold(0, |number, &(count, rank)| number * count as u64 + rank as u64)
}

/// The number of up entries of the productions before `production`; of all, when it is P.
pub fn up_start(grammar: &Grammar, production: usize, plausible: &[u8]) -> u64 {
    grammar.productions[..production].iter().map(|p| choices(p, plausible)).sum()
}

pub fn down_start(grammar: &Grammar, production: usize, plausible: &[u8], feasible: &[u8]) -> u64 {
    grammar.productions[..production].iter().map(|p| down_entries(p, plausible, feasible)).sum()
}
