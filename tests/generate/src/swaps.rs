//! Swaps of subtrees that group alike at their node: what demand 3 speaks of.

use crate::chance::Chance;
use crate::lawful;
use crate::sheets::{grown, Grower};
use crate::tables::built;
use oracle::book::{check_book, Grammar};
use oracle::limits::{LEVELS, SETTINGS};
use oracle::sheet::{read_sheet, Node};
use oracle::walk::{number_sheet, Tables};

pub struct Swap {
    pub book: Vec<u8>,
    pub tables: Tables,
    pub old: Vec<u8>,
    pub new: Vec<u8>,
    /// The node whose subtree is swapped, and where the subtree ends in each sheet.
    pub node: usize,
    pub old_end: usize,
    pub new_end: usize,
}

/// Where the subtree at a node ends.
fn end(nodes: &[Node], node: usize) -> usize {
    nodes[node].children.last().map_or(node + 1, |&last| end(nodes, last))
}

fn plausible_rank(book: &[u8], sheet: &[u8], tables: &Tables, node: usize) -> Option<u64> {
    let mut places = vec![0; 3 * sheet.len()];
    let mut groups = vec![0; SETTINGS * sheet.len()];
    number_sheet(book, sheet, tables, &mut places, &mut groups).ok()?;
    Some(places[3 * node])
}

/// Another subtree for a node, with the same plausible rank there.
fn other_subtree(chance: &mut Chance, grammar: &Grammar, swap: &Swap, node: &Node) -> Option<Vec<u8>> {
    let rank = plausible_rank(&swap.book, &swap.old, &swap.tables, swap.node)?;
    let kind = grammar.productions[node.production].left;
    let grower = Grower::new(grammar);
    let (before, subtree) = swap.old[..swap.old_end].split_at(swap.node);
    for _ in 0..20 {
        let nodes = chance.between(1, 30);
        let other = grower.tree(chance, kind, nodes, LEVELS + 1 - node.level)?;
        let sheet = [before, &other, &swap.old[swap.old_end..]].concat();
        if other != subtree && plausible_rank(&swap.book, &sheet, &swap.tables, swap.node) == Some(rank) {
            return Some(other);
        }
    }
    None
}

/// A swap in a random vehicle of a random book, if one is found at once.
fn attempt(chance: &mut Chance) -> Option<Swap> {
    let book = lawful::book(chance).bytes();
    let grammar = check_book(&book).ok()?;
    let tables = built(&book)?;
    let old = grown(chance, &grammar)?;
    let nodes = read_sheet(&grammar, &old).ok()?;
    let node = chance.below(nodes.len());
    let old_end = end(&nodes, node);
    let mut swap = Swap { book, tables, old, new: Vec::new(), node, old_end, new_end: 0 };
    let other = other_subtree(chance, &grammar, &swap, &nodes[node])?;
    swap.new_end = node + other.len();
    swap.new = [&swap.old[..node], &other, &swap.old[old_end..]].concat();
    Some(swap)
}

pub fn swap(chance: &mut Chance) -> Swap {
    loop {
        if let Some(swap) = attempt(chance) {
            return swap;
        }
    }
}
