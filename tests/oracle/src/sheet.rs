//! The tree sheet: refusals 20 to 23, and the tree that an accepted sheet lists.

use crate::book::Grammar;
use crate::faults::{limit, wrong};
use crate::limits::{LEVELS, SHEET};
use crate::refusal::{refuse, Refusal};

#[derive(Clone, Debug)]
pub struct Node {
    pub production: usize,
    pub level: usize,
    /// The positions of the children, from left to right.
    pub children: Vec<usize>,
}

/// What the tree read so far still wants: a node of a kind at a level, as a child of `parent`.
struct Due {
    kind: usize,
    level: usize,
    parent: Option<usize>,
}

/// Reads the sheet from left to right with a pile of what is due.
pub fn read_sheet(grammar: &Grammar, sheet: &[u8]) -> Result<Vec<Node>, Refusal> {
    if sheet.is_empty() || sheet.len() > limit("sheet", SHEET) {
        return refuse(20, 0);
    }
    let mut nodes: Vec<Node> = Vec::new();
    let mut due = vec![Due { kind: grammar.start, level: 1, parent: None }];
    while let Some(want) = due.pop() {
        let position = nodes.len();
        let byte = match sheet.get(position) {
            Some(&byte) => byte,
            None => return refuse(22, if wrong("early-end-place") { position - 1 } else { position }),
        };
        fits(grammar, byte, &want, position)?;
        let production = &grammar.productions[byte as usize];
        nodes.push(Node { production: byte as usize, level: want.level, children: Vec::new() });
        if let Some(parent) = want.parent {
            nodes[parent].children.push(position);
        }
        let mut children = production.children.clone();
        if wrong("children-reversed") {
            children.reverse();
        }
        for &kind in children.iter().rev() {
            due.push(Due { kind, level: want.level + 1, parent: Some(position) });
        }
    }
    match sheet.get(nodes.len()) {
        None => Ok(nodes),
        Some(_) if wrong("leftover") => Ok(nodes),
        Some(&byte) if byte as usize >= grammar.productions.len() && !wrong("leftover-22") => refuse(21, nodes.len()),
        Some(_) => refuse(22, nodes.len()),
    }
}

/// Refusals 21, 22 and 23 at one position, in that order.
fn fits(grammar: &Grammar, byte: u8, want: &Due, position: usize) -> Result<(), Refusal> {
    let deepest = limit("levels", LEVELS);
    if wrong("level-first") && want.level > deepest {
        return refuse(23, position);
    }
    let production = match grammar.productions.get(byte as usize) {
        Some(production) => production,
        None => return refuse(21, position),
    };
    if production.left != want.kind {
        return refuse(22, position);
    }
    if want.level > deepest {
        return refuse(23, position);
    }
    Ok(())
}

/// The number of settings of all nodes together.
pub fn settings(grammar: &Grammar, nodes: &[Node]) -> usize {
    nodes.iter().map(|node| settings_at(grammar, node)).sum()
}

pub fn settings_at(grammar: &Grammar, node: &Node) -> usize {
    grammar.kinds[grammar.productions[node.production].left].settings
}
