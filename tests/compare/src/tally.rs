//! What a run has reached: each refusal, and the number of groups.

use oracle::limits::{SETTINGS, SHEET};
use std::collections::BTreeMap;

/// What a run has to reach: these refusals, and so many groups.
pub struct Wanted {
    refusals: &'static [u16],
    groups: usize,
}

/// Of the programs every refusal, and the most groups that there can be, each setting of each node alone.
pub const OF_PROGRAMS: Wanted = Wanted {
    refusals: &[1, 2, 3, 4, 5, 6, 7, 8, 9, 10, 11, 12, 13, 20, 21, 22, 23, 24, 25, 30],
    groups: SETTINGS * SHEET,
};

/// Of the checks that C calls.
pub const OF_CHECKS: Wanted = Wanted { refusals: &[1, 2, 3, 4, 5, 6, 7, 8, 20, 21, 22, 23, 30], groups: 0 };

#[derive(Default)]
pub struct Tally {
    accepted: usize,
    sets: usize,
    refused: BTreeMap<u16, usize>,
    /// Answers with more groups than a byte counts, and the most groups of any.
    over_a_byte: usize,
    groups: usize,
}

impl Tally {
    /// Counts an answer by its first line; a block set has neither `ok` nor `refused`.
    pub fn count(&mut self, answer: &str) {
        let mut words = answer.lines().next().unwrap_or_default().split_whitespace();
        let word = words.next();
        let numbers: Vec<usize> = words.filter_map(|word| word.parse().ok()).collect();
        match (word, &numbers[..]) {
            (Some("ok"), &[_, _, groups]) => {
                self.accepted += 1;
                self.over_a_byte += usize::from(groups > 256);
                self.groups = self.groups.max(groups);
            }
            (Some("ok"), _) => self.accepted += 1,
            (Some("refused"), &[number, _]) => *self.refused.entry(number as u16).or_default() += 1,
            _ => self.sets += 1,
        }
    }

    pub fn print(&self) {
        println!("accepted {}, block sets {}", self.accepted, self.sets);
        println!("groups   over 256: {}, at most: {}", self.over_a_byte, self.groups);
        self.print_refused();
    }

    /// The same of the checks, which give neither block sets nor groups.
    pub fn print_checks(&self) {
        println!("accepted {}", self.accepted);
        self.print_refused();
    }

    fn print_refused(&self) {
        let counts = self.refused.iter().map(|(number, times)| format!("{number}: {times}"));
        println!("refused  {}", counts.collect::<Vec<_>>().join(", "));
    }

    /// What was not reached, in words; nothing if all was.
    pub fn missing(&self, wanted: &Wanted) -> Option<String> {
        let refusals = wanted.refusals.iter().filter(|number| !self.refused.contains_key(number));
        let refusals: Vec<&u16> = refusals.collect();
        if self.accepted == 0 {
            Some("nothing was accepted".to_string())
        } else if !refusals.is_empty() {
            Some(format!("never reached: {refusals:?}"))
        } else if self.groups != wanted.groups {
            Some(format!("never reached: {} groups, only {}", wanted.groups, self.groups))
        } else {
            None
        }
    }
}
