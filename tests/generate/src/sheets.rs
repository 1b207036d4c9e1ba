//! Sheets: grown from a grammar, at the limits, and damaged.

use crate::chance::Chance;
use oracle::book::Grammar;
use oracle::limits::{LEVELS, SHEET};

/// Grows trees from a grammar; it knows how high the lowest tree of each kind is.
pub struct Grower<'a> {
    grammar: &'a Grammar,
    lowest: Vec<Option<usize>>,
}

impl<'a> Grower<'a> {
    pub fn new(grammar: &'a Grammar) -> Grower<'a> {
        let mut grower = Grower { grammar, lowest: vec![None; grammar.kinds.len()] };
        for _ in 0..grammar.kinds.len() {
            for production in 0..grammar.productions.len() {
                let left = grammar.productions[production].left;
                let height = grower.height(production);
                if height.is_some() && grower.lowest[left].map_or(true, |low| Some(low) > height) {
                    grower.lowest[left] = height;
                }
            }
        }
        grower
    }

    /// The least height of a tree with this production at its root, if there is any.
    fn height(&self, production: usize) -> Option<usize> {
        let children = self.grammar.productions[production].children.iter();
        let below = children.map(|&child| self.lowest[child]).collect::<Option<Vec<_>>>()?;
        Some(1 + below.into_iter().max().unwrap_or(0))
    }

    /// A tree of a kind, of about `nodes` nodes and at most `levels` levels, if one can be had.
    pub fn tree(&self, chance: &mut Chance, kind: usize, nodes: usize, levels: usize) -> Option<Vec<u8>> {
        let mut sheet = Vec::new();
        let fits = self.lowest[kind].map_or(false, |height| height <= levels);
        fits.then(|| self.grow(chance, kind, nodes, levels, &mut sheet))?;
        (sheet.len() <= SHEET).then_some(sheet)
    }

    fn grow(&self, chance: &mut Chance, kind: usize, nodes: usize, levels: usize, sheet: &mut Vec<u8>) {
        let own = (0..self.grammar.productions.len()).filter(|&p| self.grammar.productions[p].left == kind);
        let fitting: Vec<usize> = own.filter(|&p| self.height(p).map_or(false, |h| h <= levels)).collect();
        let low = |p: &&usize| self.height(**p) == self.lowest[kind];
        let going_on = |p: &&usize| !self.grammar.productions[**p].children.is_empty();
        let wanted: Vec<usize> = match sheet.len() < nodes {
            true if !chance.once_in(4) => fitting.iter().filter(going_on).copied().collect(),
            true => fitting.clone(),
            false => fitting.iter().filter(low).copied().collect(),
        };
        let production = *chance.pick(if wanted.is_empty() { &fitting } else { &wanted });
        sheet.push(production as u8);
        if sheet.len() <= SHEET {
            for &child in &self.grammar.productions[production].children {
                self.grow(chance, child, nodes, levels - 1, sheet);
            }
        }
    }
}

/// A sheet of a grammar, small or middling; nothing if none can be grown.
pub fn grown(chance: &mut Chance, grammar: &Grammar) -> Option<Vec<u8>> {
    let nodes = *chance.pick(&[1, 3, 6, 10, 20, 40, 100]);
    let levels = *chance.pick(&[3, 6, 10, LEVELS, LEVELS, LEVELS]);
    Grower::new(grammar).tree(chance, grammar.start, nodes, levels)
}

/// A sheet of the book `limits::apart` with exactly so many nodes, from 2 on, no more levels than there may be.
pub fn apart(nodes: usize) -> Vec<u8> {
    let mut sheet = vec![0];
    spread(nodes - 1, &mut sheet);
    sheet
}

/// Productions 1 to 4 have 4, 2, 1 and 0 children: the nodes below are shared out evenly.
fn spread(nodes: usize, sheet: &mut Vec<u8>) {
    let below = nodes - 1;
    let children = *[4, 2, 1, 0].iter().find(|&&children| children <= below).unwrap();
    sheet.push(match children {
        4 => 1,
        2 => 2,
        1 => 3,
        _ => 4,
    });
    for child in 0..children {
        spread((below + child) / children, sheet);
    }
}

/// A sheet of `limits::apart` with a branch of exactly so many levels, from 3 on; `side` adds
/// shorter branches.
pub fn tower(levels: usize, side: bool) -> Vec<u8> {
    let step: &[u8] = if side { &[2, 4] } else { &[3] };
    let mut sheet = vec![0];
    for _ in 2..levels {
        sheet.extend(step);
    }
    sheet.push(4);
    sheet
}

/// A sheet with something wrong, mostly.
pub fn damaged(chance: &mut Chance, grammar: &Grammar, sheet: &[u8]) -> Vec<u8> {
    let mut sheet = sheet.to_vec();
    let productions = grammar.productions.len();
    let stranger = *chance.pick(&[productions as u8, 64, 128, 255]);
    let known = chance.below(productions) as u8;
    let at = chance.below(sheet.len().max(1));
    match chance.below(7) {
        0 => sheet.truncate(at),
        1 => sheet.push(known),
        2 => sheet.push(stranger),
        3 if !sheet.is_empty() => sheet[at] = known,
        4 if !sheet.is_empty() => sheet[at] = stranger,
        5 if sheet.len() > 1 => sheet.swap(at, 0),
        _ => sheet.insert(at, known),
    }
    sheet
}
