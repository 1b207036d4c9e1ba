//! The article's Fig. 3 as it stands, every choice by itself, with union-find for merging: slow and
//! plain, to hold the passes against on small books. Also plausible groupings by grown trees.

use crate::book::{Grammar, Production};
use crate::chains::{chains, Chains};
use crate::limits::{LABELS, SETTINGS, SHEET};
use crate::passes::Sets;
use crate::sheet::read_sheet;
use crate::ties::{code_of, label_in, Code};
use std::collections::{BTreeMap, BTreeSet};

/// All ways to take one member of each set.
fn choices(sets: &[Vec<Code>]) -> Vec<Vec<Code>> {
    sets.iter().fold(vec![Vec::new()], |so_far, set| {
        let longer = |choice: &Vec<Code>| set.iter().map(|&c| [&choice[..], &[c]].concat()).collect::<Vec<_>>();
        so_far.iter().flat_map(longer).collect()
    })
}

/// Merges the base and a code for some slots; the result projected on each slot.
fn merge(grammar: &Grammar, production: &Production, codes: &[(usize, Code)]) -> Vec<Code> {
    let settings = grammar.settings_by_slot(production);
    let mut merged = Chains::apart(LABELS);
    for &(to, from) in &production.pairs {
        merged.tie(to as usize, from as usize);
    }
    for &(slot, code) in codes {
        for one in 0..settings[slot] {
            for other in 0..one {
                if label_in(code, one) == label_in(code, other) {
                    merged.tie(SETTINGS * slot + one, SETTINGS * slot + other);
                }
            }
        }
    }
    let project = |slot: usize| {
        let roots: Vec<u8> = (0..settings[slot]).map(|i| merged.root(SETTINGS * slot + i) as u8).collect();
        code_of(&roots)
    };
    (0..settings.len()).map(project).collect()
}

fn members(sets: &[BTreeSet<Code>], production: &Production) -> Vec<Vec<Code>> {
    production.children.iter().map(|&child| sets[child].iter().copied().collect()).collect()
}

/// Both passes of Fig. 3, without a limit on members.
pub fn sets(grammar: &Grammar) -> Sets {
    let mut plausible = vec![BTreeSet::new(); grammar.kinds.len()];
    let mut changed = true;
    while std::mem::take(&mut changed) {
        for production in &grammar.productions {
            for choice in choices(&members(&plausible, production)) {
                let codes: Vec<_> = (1..).zip(choice).collect();
                changed |= plausible[production.left].insert(merge(grammar, production, &codes)[0]);
            }
        }
    }
    let mut feasible = vec![BTreeSet::new(); grammar.kinds.len()];
    feasible[grammar.start] = plausible[grammar.start].clone();
    changed = true;
    while std::mem::take(&mut changed) {
        for production in &grammar.productions {
            let mut all = members(&plausible, production);
            all.insert(0, feasible[production.left].iter().copied().collect());
            for choice in choices(&all) {
                let codes: Vec<_> = (0..).zip(choice).collect();
                let merged = merge(grammar, production, &codes);
                for (&child, &code) in production.children.iter().zip(&merged[1..]) {
                    changed |= feasible[child].insert(code);
                }
            }
        }
    }
    let lists = |sets: Vec<BTreeSet<Code>>| sets.into_iter().map(|set| set.into_iter().collect()).collect();
    Sets { plausible: lists(plausible), feasible: lists(feasible) }
}

/// What a whole subtree of a kind, given as its sheet, ties at its root: by union-find over all of it.
pub fn grouping_of_tree(grammar: &Grammar, kind: usize, sheet: &[u8]) -> Code {
    let rooted = Grammar { start: kind, ..grammar.clone() };
    let nodes = read_sheet(&rooted, sheet).expect("a tree of that kind");
    let chains = chains(grammar, &nodes);
    let settings = grammar.kinds[kind].settings;
    let labels = chains[..settings].iter().map(|root| chains[..settings].iter().position(|r| r == root));
    let labels: Vec<u8> = labels.map(|first| first.unwrap() as u8).collect();
    code_of(&labels)
}

/// For each kind the groupings of grown trees, each with a tree that has it. Trees grow by putting
/// those found so far under every production; a tree that shows nothing new is not kept.
pub fn grown(grammar: &Grammar) -> Vec<BTreeMap<Code, Vec<u8>>> {
    let mut found: Vec<BTreeMap<Code, Vec<u8>>> = vec![BTreeMap::new(); grammar.kinds.len()];
    let mut grew = true;
    while std::mem::take(&mut grew) {
        for (number, production) in grammar.productions.iter().enumerate() {
            let mut trees = vec![vec![number as u8]];
            for &child in &production.children {
                let under = |tree: &Vec<u8>| found[child].values().map(|s| [&tree[..], s].concat()).collect::<Vec<_>>();
                trees = trees.iter().flat_map(under).collect();
            }
            for tree in trees.into_iter().filter(|tree| tree.len() <= SHEET) {
                let code = grouping_of_tree(grammar, production.left, &tree);
                grew |= !found[production.left].contains_key(&code);
                found[production.left].entry(code).or_insert(tree);
            }
        }
    }
    found
}
