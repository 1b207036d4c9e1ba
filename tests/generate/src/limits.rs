//! Books that stand at a limit or one step past it.

use crate::chance::Chance;
use crate::lawful::random_entry;
use crate::plan::{Entry, Plan};
use oracle::limits::{CHILDREN, KINDS, PAIRS, PRODUCTIONS, SETTINGS};

/// All groupings of so many settings, as labels by first appearance.
pub fn groupings(settings: usize) -> Vec<Vec<u8>> {
    (0..settings).fold(vec![Vec::new()], |shorter, _| {
        let longer = |labels: &Vec<u8>| {
            let next = labels.iter().max().map_or(0, |most| most + 1);
            (0..=next).map(|label| [&labels[..], &[label]].concat()).collect::<Vec<_>>()
        };
        shorter.iter().flat_map(longer).collect()
    })
}

/// Pairs that tie the synthesized settings of slot 0 as the labels say.
fn tied(labels: &[u8]) -> Vec<(u8, u8)> {
    let first = |label: u8| labels.iter().position(|&other| other == label).unwrap();
    (0..labels.len()).filter(|&i| first(labels[i]) < i).map(|i| (i as u8, first(labels[i]) as u8)).collect()
}

/// A kind of synthesized settings with the first `members` groupings, each by a childless production.
fn varied(plan: &mut Plan, settings: u8, members: usize) -> u8 {
    let kind = plan.kind(settings, 0);
    for labels in groupings(settings as usize).iter().take(members) {
        plan.production(kind, &[], &tied(labels));
    }
    kind
}

/// A kind of eight settings with exactly one times other plausible groupings: two halves, each
/// grouped by a child of its own; and one more, all together, if asked.
fn product(plan: &mut Plan, one: usize, other: usize, together: bool) -> u8 {
    let (left, right) = (varied(plan, 4, one), varied(plan, 4, other));
    let kind = plan.kind(8, 0);
    let halves: Vec<(u8, u8)> = (0..4).flat_map(|i| [(i, 8 + i), (4 + i, 16 + i)]).collect();
    plan.production(kind, &[left, right], &halves);
    if together {
        plan.production(kind, &[], &tied(&[0; 8]));
    }
    kind
}

/// A start without settings, to be given productions.
fn started() -> Plan {
    let mut plan = Plan::default();
    plan.kind(0, 0);
    plan
}

/// A kind with exactly 63, 64 or 65 plausible groupings, in the tree or out of reach.
pub fn plausible(members: usize, reachable: bool) -> Plan {
    let mut plan = started();
    let kind = match members {
        63 => product(&mut plan, 7, 9, false),
        64 => product(&mut plan, 8, 8, false),
        _ => product(&mut plan, 8, 8, true),
    };
    plan.production(0, if reachable { std::slice::from_ref(&kind) } else { &[] }, &[]);
    plan
}

/// A kind with one plausible grouping and exactly 63, 64 or 65 feasible ones, got from a sibling's.
pub fn feasible(members: usize) -> Plan {
    let mut plan = started();
    let sibling = if members == 63 { product(&mut plan, 7, 9, false) } else { product(&mut plan, 8, 8, false) };
    let child = plan.kind(8, 255);
    plan.production(child, &[], &[]);
    let from_sibling: Vec<(u8, u8)> = (0..8).map(|i| (16 + i, 8 + i)).collect();
    plan.production(0, &[sibling, child], &from_sibling);
    if members == 65 {
        let together = plan.kind(8, 0);
        plan.production(together, &[], &tied(&[0; 8]));
        plan.production(0, &[together, child], &from_sibling);
    }
    plan
}

/// Productions of a kind without settings over a child with five groupings, so many that they have
/// exactly `entries` choices together: five to the fourth, third, and so on down to one.
fn choices(plan: &mut Plan, kind: u8, child: u8, mut entries: usize) {
    for children in (0..=CHILDREN).rev() {
        let each = 5usize.pow(children as u32);
        for _ in 0..entries / each {
            plan.production(kind, &vec![child; children], &[]);
        }
        entries %= each;
    }
}

/// Exactly so many up entries (from 7 on) and a single down entry: what counts is out of reach.
pub fn up_entries(entries: usize) -> Plan {
    let mut plan = started();
    plan.production(0, &[], &[]);
    let child = varied(&mut plan, 3, 5);
    let apart = plan.kind(0, 0);
    choices(&mut plan, apart, child, entries - 6);
    plan
}

/// Exactly so many down entries, from 31 on: below that the child is out of reach.
pub fn down_entries(entries: usize) -> Plan {
    let mut plan = started();
    let child = varied(&mut plan, 3, 5);
    let parent = plan.kind(0, 0);
    plan.production(0, &[parent], &[]);
    choices(&mut plan, parent, child, entries - 26);
    plan
}

/// Every setting apart: eight at the root, `settings` at each node below, which has 4, 2, 1 or 0 children.
pub fn apart(settings: u8) -> Plan {
    let mut plan = Plan::default();
    let start = plan.kind(SETTINGS as u8, 0);
    let node = plan.kind(settings, 0);
    plan.production(start, &[node], &[]);
    for children in [4, 2, 1, 0] {
        plan.production(node, &vec![node; children], &[]);
    }
    plan
}

/// The most kinds and productions, and the most children and pairs in each; nothing grows from it.
pub fn largest(chance: &mut Chance) -> Plan {
    let mut plan = Plan::default();
    plan.kind(SETTINGS as u8, 0);
    for _ in 1..KINDS {
        // All of a child's settings can be set, so that there are pairs enough.
        plan.kind(SETTINGS as u8, 255);
    }
    for number in 0..PRODUCTIONS {
        let mut entry = random_entry(chance, &plan, (number % KINDS) as u8, CHILDREN, 2000);
        chance.shuffle(&mut entry.pairs);
        entry.pairs.truncate(PAIRS);
        entry.pairs.sort();
        plan.entries.push(entry);
    }
    plan
}

/// One kind, the start, with nothing but childless productions.
pub fn lonely(chance: &mut Chance) -> Plan {
    let mut plan = Plan::default();
    plan.kind(chance.below(SETTINGS + 1) as u8, 0);
    for _ in 0..*chance.pick(&[1, 2, 5, PRODUCTIONS]) {
        let pairs = chance.below(5);
        let entry = random_entry(chance, &plan, 0, 0, pairs);
        plan.entries.push(entry);
    }
    plan
}

/// No finite tree grows from the start, though one grows from another kind.
pub fn unproductive() -> Plan {
    let mut plan = Plan::default();
    let start = plan.kind(2, 0);
    let endless = plan.kind(2, 1);
    let fine = plan.kind(3, 0);
    plan.production(start, &[endless], &[(0, 8)]);
    plan.production(endless, &[endless, fine], &[(1, 0)]);
    plan.production(fine, &[], &[(1, 0)]);
    plan.production(fine, &[fine], &[(0, 8)]);
    plan
}

/// 64 groupings in each child: millions of choices, few results.
pub fn many_choices(chance: &mut Chance) -> Plan {
    let mut plan = started();
    let child = product(&mut plan, 8, 8, false);
    let carrier = plan.kind(3, 0);
    plan.production(0, &[carrier], &[]);
    for _ in 0..chance.between(1, 3) {
        let children = chance.between(2, CHILDREN);
        let entry = random_entry(chance, &plan, carrier, 0, 0);
        let pairs: Vec<(u8, u8)> =
            (0..6).map(|_| (chance.below(3) as u8, chance.between(8, 8 * children + 7) as u8)).collect();
        plan.production(entry.left, &vec![child; children], &pairs);
    }
    plan
}

/// Entries with far too many children, which still fill the book: refusal 6, not 4.
pub fn swollen(chance: &mut Chance) -> Plan {
    let mut plan = started();
    plan.kind(1, 0);
    for _ in 0..chance.between(1, 50) {
        let children = vec![1; *chance.pick(&[CHILDREN + 1, 40, 255])];
        plan.entries.push(Entry { left: chance.below(2) as u8, children, pairs: vec![(0, 0); PAIRS] });
    }
    plan
}
