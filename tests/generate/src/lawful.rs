//! Random lawful books.

use crate::chance::Chance;
use crate::plan::{Entry, Kind, Plan};
use oracle::limits::{CHILDREN, KINDS, PRODUCTIONS, SETTINGS};

/// How large a random book is meant to be.
pub struct Size {
    pub kinds: usize,
    pub settings: usize,
    pub productions: usize,
    pub children: usize,
    pub pairs: usize,
}

/// Mostly small books, whose tables fit and differ from node to node; sometimes any size at all.
fn size(chance: &mut Chance) -> Size {
    let kinds = *chance.pick(&[1, 2, 2, 3, 3, 4, 4, 5, 6, 8, 12, 20, KINDS]);
    let most = PRODUCTIONS - kinds;
    Size {
        kinds,
        settings: *chance.pick(&[0, 1, 2, 2, 3, 3, 3, 4, 4, 5, 6, SETTINGS]),
        productions: kinds + chance.below(most.min(2 * kinds) + 1),
        children: *chance.pick(&[1, 2, 2, 2, 3, CHILDREN]),
        pairs: *chance.pick(&[0, 1, 2, 3, 4, 6, 12]),
    }
}

pub fn book(chance: &mut Chance) -> Plan {
    let size = size(chance);
    sized(chance, &size)
}

/// A book with tables small enough for plain enumeration.
pub fn small_book(chance: &mut Chance) -> Plan {
    let kinds = chance.between(2, 4);
    let size = Size {
        kinds,
        settings: chance.between(1, 4),
        productions: kinds + chance.between(1, 5),
        children: 2,
        pairs: chance.between(1, 4),
    };
    sized(chance, &size)
}

pub fn sized(chance: &mut Chance, size: &Size) -> Plan {
    let start = chance.below(size.kinds);
    let kinds = (0..size.kinds).map(|kind| random_kind(chance, size.settings, kind == start)).collect();
    let mut plan = Plan { kinds, entries: Vec::new(), start: start as u8 };
    // Every kind has a production; the others go anywhere.
    let mut lefts: Vec<usize> = (0..size.kinds).collect();
    lefts.extend((size.kinds..size.productions).map(|_| chance.below(size.kinds)));
    let ends = !chance.once_in(8);
    for (place, left) in lefts.into_iter().enumerate() {
        let childless = ends && place < size.kinds && !chance.once_in(6);
        let children = if childless { 0 } else { chance.below(size.children + 1) };
        let entry = random_entry(chance, &plan, left as u8, children, size.pairs);
        plan.entries.push(entry);
    }
    chance.shuffle(&mut plan.entries);
    plan
}

fn random_kind(chance: &mut Chance, most: usize, is_start: bool) -> Kind {
    let settings = chance.below(most + 1) as u8;
    let mask = if is_start { 0 } else { chance.byte() };
    Kind { settings, inherited: (mask as u16 & ((1 << settings) - 1)) as u8 }
}

/// A production over the plan's kinds, with at most so many pairs; the start is no child.
pub fn random_entry(chance: &mut Chance, plan: &Plan, left: u8, children: usize, pairs: usize) -> Entry {
    let others: Vec<u8> = (0..plan.kinds.len() as u8).filter(|&kind| kind != plan.start).collect();
    let children = if others.is_empty() { 0 } else { children };
    let children = (0..children).map(|_| *chance.pick(&others)).collect();
    let mut entry = Entry { left, children, pairs: Vec::new() };
    let (all, settable) = (plan.occurrences(&entry), plan.settable(&entry));
    if !settable.is_empty() {
        let pair = |_| (*chance.pick(&settable), *chance.pick(&all));
        entry.pairs = (0..pairs).map(pair).collect();
    }
    entry.pairs.sort();
    entry.pairs.dedup();
    entry
}
