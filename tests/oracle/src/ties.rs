//! Groupings of the occurrences of one production, and their codes for one slot.

use crate::book::{Grammar, Production};
use crate::faults::wrong;
use crate::limits::{LABELS, SETTINGS};

/// A grouping of one kind's settings: setting i has its label in bits 3i to 3i+2.
pub type Code = u32;

/// Where no occurrence stands, or where it was dropped.
pub const NONE: u8 = 255;

/// All occurrences with block labels by first appearance, so that equal groupings are equal values.
#[derive(Clone, Copy, Debug, PartialEq, Eq, Hash, PartialOrd, Ord)]
pub struct Ties(pub [u8; LABELS]);

/// Labels afresh by first appearance; NONE stays.
pub fn relabel(labels: &mut [u8]) {
    let mut fresh = [NONE; 256];
    let mut next = 0;
    for label in labels.iter_mut().filter(|label| **label != NONE) {
        let new = &mut fresh[*label as usize];
        if *new == NONE {
            *new = next;
            next += 1;
        }
        *label = *new;
    }
}

/// The code of a list of labels, one for each setting.
pub fn code_of(labels: &[u8]) -> Code {
    let mut labels = labels.to_vec();
    relabel(&mut labels);
    labels.iter().enumerate().map(|(setting, &label)| (label as Code) << (3 * setting)).sum()
}

pub fn label_in(code: Code, setting: usize) -> u8 {
    (code >> (3 * setting) & 7) as u8
}

impl Ties {
    /// All occurrences of the production apart.
    pub fn apart(grammar: &Grammar, production: &Production) -> Ties {
        let mut labels = [NONE; LABELS];
        for (slot, &settings) in grammar.settings_by_slot(production).iter().enumerate() {
            for setting in 0..settings {
                labels[SETTINGS * slot + setting] = (SETTINGS * slot + setting) as u8;
            }
        }
        relabel(&mut labels);
        Ties(labels)
    }

    /// The base grouping: the two ends of each dependence share a block.
    pub fn base(grammar: &Grammar, production: &Production) -> Ties {
        let mut ties = Ties::apart(grammar, production);
        for &(to, from) in &production.pairs {
            if wrong("own-direction") && from < to {
                continue;
            }
            ties.tie(to as usize, from as usize);
        }
        relabel(&mut ties.0);
        ties
    }

    /// Makes one block of two; the labels are no longer by first appearance.
    fn tie(&mut self, one: usize, other: usize) {
        let (keep, gone) = (self.0[one], self.0[other]);
        for label in self.0.iter_mut() {
            if *label == gone {
                *label = keep;
            }
        }
    }

    /// The join with a grouping of one slot's settings.
    pub fn joined(mut self, slot: usize, settings: usize, code: Code) -> Ties {
        for setting in 1..settings {
            let label = label_in(code, setting);
            let mut earlier = 0..setting;
            if wrong("only-neighbours") {
                earlier = setting - 1..setting;
            }
            if let Some(first) = earlier.into_iter().find(|&other| label_in(code, other) == label) {
                self.tie(SETTINGS * slot + first, SETTINGS * slot + setting);
            }
        }
        relabel(&mut self.0);
        self
    }

    /// The projection that drops one slot.
    pub fn without(mut self, slot: usize) -> Ties {
        self.0[SETTINGS * slot..][..SETTINGS].fill(NONE);
        relabel(&mut self.0);
        self
    }

    /// The projection on one slot, as a code.
    pub fn on(&self, slot: usize, settings: usize) -> Code {
        code_of(&self.0[SETTINGS * slot..][..settings])
    }
}
