//! Chains over a whole tree by union-find, without sets or tables: what demand 2 asks for.

use crate::book::Grammar;
use crate::sheet::{settings_at, Node};

/// Union-find over things numbered from 0.
pub struct Chains {
    parent: Vec<usize>,
}

impl Chains {
    pub fn apart(things: usize) -> Chains {
        Chains { parent: (0..things).collect() }
    }

    pub fn root(&self, mut thing: usize) -> usize {
        while self.parent[thing] != thing {
            thing = self.parent[thing];
        }
        thing
    }

    pub fn tie(&mut self, one: usize, other: usize) {
        let root = self.root(one);
        self.parent[root] = self.root(other);
    }
}

/// For each node the number of its first setting, settings being listed by node, then by setting.
pub fn first_settings(grammar: &Grammar, nodes: &[Node]) -> Vec<usize> {
    let mut next = 0;
    let mut firsts = Vec::new();
    for node in nodes {
        firsts.push(next);
        next += settings_at(grammar, node);
    }
    firsts
}

/// A name for each setting's chain, settings listed by node, then by setting.
pub fn chains(grammar: &Grammar, nodes: &[Node]) -> Vec<usize> {
    let firsts = first_settings(grammar, nodes);
    let settings = crate::sheet::settings(grammar, nodes);
    let mut chains = Chains::apart(settings);
    for (position, node) in nodes.iter().enumerate() {
        let at = |occurrence: u8| {
            let slot = (occurrence >> 3) as usize;
            let node = if slot == 0 { position } else { node.children[slot - 1] };
            firsts[node] + (occurrence & 7) as usize
        };
        for &(to, from) in &grammar.productions[node.production].pairs {
            chains.tie(at(to), at(from));
        }
    }
    (0..settings).map(|setting| chains.root(setting)).collect()
}

/// Two lists name the same sharing: equal in one exactly where equal in the other.
pub fn same_sharing<A: PartialEq, B: PartialEq>(one: &[A], other: &[B]) -> bool {
    let first = |i: usize| (one.iter().position(|a| *a == one[i]), other.iter().position(|b| *b == other[i]));
    one.len() == other.len() && (0..one.len()).all(|i| first(i).0 == first(i).1)
}
