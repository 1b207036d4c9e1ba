//! The two passes of the article's Fig. 3, child by child: a choice is joined one slot at a time,
//! a slot is dropped once it is joined, and equal groupings are thrown together. What would be
//! millions of choices then stays small, also in books made to be slow.

use crate::book::{Grammar, Production};
use crate::faults::{limit, wrong};
use crate::limits::MEMBERS;
use crate::refusal::{refuse, Refusal};
use crate::ties::{Code, Ties};
use std::collections::HashSet;
use std::hash::{BuildHasherDefault, Hasher};

/// Plausible and feasible groupings of every kind, in rising code order.
#[derive(Debug, PartialEq, Eq)]
pub struct Sets {
    pub plausible: Vec<Vec<Code>>,
    pub feasible: Vec<Vec<Code>>,
}

/// A quick hash; the standard one is made for keys from strangers.
#[derive(Default)]
struct Quick(u64);

impl Hasher for Quick {
    fn finish(&self) -> u64 {
        self.0
    }
    fn write(&mut self, bytes: &[u8]) {
        for chunk in bytes.chunks(8) {
            let mut word = [0; 8];
            word[..chunk.len()].copy_from_slice(chunk);
            self.0 = (self.0 ^ u64::from_le_bytes(word)).wrapping_mul(0x9E37_79B9_7F4A_7C15);
            self.0 ^= self.0 >> 29;
        }
    }
}

type States = HashSet<Ties, BuildHasherDefault<Quick>>;

/// Every state joined with every one of the codes in a slot, and the slot dropped.
fn join_slot(states: &States, slot: usize, settings: usize, codes: &[Code]) -> States {
    let mut joined = States::default();
    for state in states {
        for &code in codes {
            joined.insert(state.joined(slot, settings, code).without(slot));
        }
    }
    joined
}

/// Joins the base with one set of codes for each of the given slots, smallest set first.
fn join_slots(grammar: &Grammar, production: &Production, mut slots: Vec<(usize, &[Code])>) -> States {
    let settings = grammar.settings_by_slot(production);
    let mut states = States::default();
    states.insert(Ties::base(grammar, production));
    slots.sort_by_key(|(_, codes)| codes.len());
    for (slot, codes) in slots {
        states = join_slot(&states, slot, settings[slot], codes);
    }
    states
}

/// Adds a code; true when it is new.
fn add(set: &mut Vec<Code>, code: Code) -> bool {
    let new = !set.contains(&code);
    if new {
        set.push(code);
    }
    new
}

/// The results of those choices that have a member not met before. The sets grow at their ends,
/// so what a production has met of each child's set is a number of members.
fn fresh(grammar: &Grammar, production: &Production, sets: &[Vec<Code>], met: &mut [usize]) -> HashSet<Code> {
    let settings = grammar.kinds[production.left].settings;
    let mut results = HashSet::new();
    let all = |place: usize| &sets[production.children[place]][..];
    for newest in 0..met.len() {
        let slots = (0..met.len()).map(|place| {
            let codes = match place.cmp(&newest) {
                std::cmp::Ordering::Less => &all(place)[..met[place]],
                std::cmp::Ordering::Equal => &all(place)[met[place]..],
                std::cmp::Ordering::Greater => all(place),
            };
            (place + 1, codes)
        });
        let slots: Vec<_> = slots.collect();
        if slots.iter().all(|(_, codes)| !codes.is_empty()) {
            let states = join_slots(grammar, production, slots);
            results.extend(states.iter().map(|state| state.on(0, settings)));
        }
    }
    if met.is_empty() {
        results.insert(Ties::base(grammar, production).on(0, settings));
    }
    for (place, seen) in met.iter_mut().enumerate() {
        *seen = all(place).len();
    }
    results
}

/// The upward pass: plausible groupings in order of discovery, or refusal 10.
fn upward(grammar: &Grammar) -> Result<Vec<Vec<Code>>, Refusal> {
    let mut sets = vec![Vec::new(); grammar.kinds.len()];
    let mut met: Vec<Vec<usize>> = grammar.productions.iter().map(|p| vec![0; p.children.len()]).collect();
    loop {
        let mut added = false;
        for (production, met) in grammar.productions.iter().zip(&mut met) {
            if wrong("stop-at-empty") && production.children.iter().any(|&child| sets[child].is_empty()) {
                break;
            }
            for code in fresh(grammar, production, &sets, met) {
                added |= add(&mut sets[production.left], code);
            }
            if sets[production.left].len() > limit("members", MEMBERS) {
                return refuse(10, 0);
            }
        }
        if !added {
            return Ok(sets);
        }
    }
}

/// One child's view of a production: what its other children make of the base, with slot 0 and the
/// child's own slot still open.
struct View {
    left: usize,
    child: usize,
    slot: usize,
    states: States,
    /// How many feasible groupings of the left kind it has met.
    met: usize,
}

fn views(grammar: &Grammar, plausible: &[Vec<Code>]) -> Vec<View> {
    let mut views = Vec::new();
    for production in &grammar.productions {
        let codes: Vec<_> = production.children.iter().map(|&child| &plausible[child][..]).collect();
        if codes.iter().any(|codes| codes.is_empty()) {
            continue;
        }
        for (place, &child) in production.children.iter().enumerate() {
            let others = (0..codes.len()).filter(|&other| other != place);
            let slots = others.map(|other| (other + 1, codes[other])).collect();
            let states = join_slots(grammar, production, slots);
            views.push(View { left: production.left, child, slot: place + 1, states, met: 0 });
        }
    }
    views
}

/// The feasible groupings that a view gives its child over the left kind's newest ones.
fn passed_down(grammar: &Grammar, view: &View, newest: &[Code], plausible: &[Code]) -> HashSet<Code> {
    let settings = grammar.kinds[view.child].settings;
    let own = join_slot(&view.states, 0, grammar.kinds[view.left].settings, newest);
    let mut results = HashSet::new();
    for state in own {
        for &code in plausible {
            results.insert(state.joined(view.slot, settings, code).on(view.slot, settings));
        }
    }
    results
}

/// The downward pass: feasible groupings in order of discovery, or refusal 11.
fn downward(grammar: &Grammar, plausible: &[Vec<Code>]) -> Result<Vec<Vec<Code>>, Refusal> {
    let mut sets = vec![Vec::new(); grammar.kinds.len()];
    sets[grammar.start] = plausible[grammar.start].clone();
    let mut views = views(grammar, plausible);
    loop {
        let mut added = false;
        for view in &mut views {
            let newest = &sets[view.left][view.met..];
            let results = passed_down(grammar, view, newest, &plausible[view.child]);
            view.met = sets[view.left].len();
            for code in results {
                added |= add(&mut sets[view.child], code);
            }
            if sets[view.child].len() > limit("members", MEMBERS) {
                return refuse(11, 0);
            }
        }
        if !added {
            return Ok(sets);
        }
    }
}

/// Both passes, each set in rising order; 10 before 11.
pub fn sets(grammar: &Grammar) -> Result<Sets, Refusal> {
    let mut plausible = upward(grammar)?;
    let mut feasible = downward(grammar, &plausible)?;
    for set in plausible.iter_mut().chain(&mut feasible) {
        set.sort();
        if wrong("falling-ranks") {
            set.reverse();
        }
    }
    Ok(Sets { plausible, feasible })
}
