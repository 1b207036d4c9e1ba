//! Books with one fault of a given number, with several, and bytes that never were a book.

use crate::chance::Chance;
use crate::lawful;
use crate::plan::{field, set_field, Entry, Field, Plan};
use oracle::limits::{CHILDREN, KINDS, PRODUCTIONS, SETTINGS, TRAILER};

/// A book with a fault of the given number, 1 to 8, where the plan has a place for it.
pub fn faulty(chance: &mut Chance, plan: &Plan, number: usize) -> Vec<u8> {
    let mut plan = plan.clone();
    match number {
        1 => {
            let bytes = plan.bytes();
            bytes[bytes.len() - chance.below(TRAILER)..].to_vec()
        }
        2..=4 => {
            let mut bytes = plan.bytes();
            spoil_trailer(chance, &mut bytes, number);
            bytes
        }
        5 => spoil_kind(chance, &mut plan),
        6 => spoil_children(chance, &mut plan),
        7 => spoil_pairs(chance, &mut plan),
        _ => spoil_left(chance, &mut plan),
    }
}

fn spoil_trailer(chance: &mut Chance, bytes: &mut Vec<u8>, number: usize) {
    match number {
        2 => set_field(bytes, Field::Edition, *chance.pick(&[0, 2, 256, 257, 0x0101, 65535])),
        3 => {
            let (which, values): (_, [u16; 4]) = match chance.below(3) {
                0 => (Field::Kinds, [0, KINDS as u16 + 1, 257, 65535]),
                1 => (Field::Productions, [0, PRODUCTIONS as u16 + 1, 257, 65535]),
                _ => (Field::Start, [field(bytes, Field::Kinds), KINDS as u16, 256, 65535]),
            };
            set_field(bytes, which, *chance.pick(&values));
        }
        _ => spoil_layout(chance, bytes),
    }
}

/// Distances that are off, gaps and remainders, entries whose counts run elsewhere.
fn spoil_layout(chance: &mut Chance, bytes: &mut Vec<u8>) {
    let trailer = bytes.len() - TRAILER;
    match chance.below(6) {
        0 => {
            let value = field(bytes, Field::BackToKinds).wrapping_add(*chance.pick(&[1, 65535, 2, 256]));
            set_field(bytes, Field::BackToKinds, value);
        }
        1 => {
            let value = field(bytes, Field::BackToProductions).wrapping_add(*chance.pick(&[1, 65535, 2, 256]));
            set_field(bytes, Field::BackToProductions, value);
        }
        2 => drop(bytes.remove(chance.below(trailer))),
        3 => bytes.insert(chance.below(trailer + 1), chance.byte()),
        4 => {
            // A byte more or less, with distances that follow.
            let at = chance.between(2, trailer);
            bytes.insert(at, 0);
            for which in [Field::BackToKinds, Field::BackToProductions] {
                let value = field(bytes, which) + 1;
                set_field(bytes, which, value);
            }
        }
        _ => {
            let productions = field(bytes, Field::Productions);
            set_field(bytes, Field::Productions, if productions > 1 { productions - 1 } else { 2 });
        }
    }
}

fn spoil_kind(chance: &mut Chance, plan: &mut Plan) -> Vec<u8> {
    let place = chance.below(plan.kinds.len());
    let start = plan.start as usize;
    match chance.below(3) {
        0 => plan.kinds[place].settings = *chance.pick(&[SETTINGS as u8 + 1, SETTINGS as u8 + 2, 16, 255]),
        1 if plan.kinds[place].settings < SETTINGS as u8 => {
            let kind = &mut plan.kinds[place];
            kind.inherited |= 1 << chance.between(kind.settings as usize, SETTINGS - 1);
        }
        _ => {
            let settings = plan.kinds[start].settings.max(1);
            plan.kinds[start].settings = settings;
            plan.kinds[start].inherited = 1 << chance.below(settings as usize);
        }
    }
    plan.bytes()
}

fn spoil_children(chance: &mut Chance, plan: &mut Plan) -> Vec<u8> {
    let (n, start) = (plan.kinds.len() as u8, plan.start);
    let place = chance.below(plan.entries.len());
    let entry = &mut plan.entries[place];
    match chance.below(4) {
        0 => entry.left = *chance.pick(&[n, KINDS as u8, 64, 255]),
        1 => {
            let count = *chance.pick(&[CHILDREN + 1, CHILDREN + 1, CHILDREN + 2, CHILDREN + 4, 31, 255]);
            entry.children = (0..count).map(|_| chance.below(n as usize) as u8).collect();
        }
        _ => {
            let bad = *chance.pick(&[n, 255, start, start]);
            match entry.children.len() {
                0 => entry.children.push(bad),
                k => entry.children[chance.below(k)] = bad,
            }
        }
    }
    plan.bytes()
}

fn spoil_pairs(chance: &mut Chance, plan: &mut Plan) -> Vec<u8> {
    let place = chance.below(plan.entries.len());
    let entry = plan.entries[place].clone();
    let pairs = &mut plan.entries[place].pairs;
    pairs.truncate(254);
    match (chance.below(4), pairs.len()) {
        (0, 1..) => {
            let at = chance.below(pairs.len());
            pairs.insert(at, pairs[at]);
        }
        (1, 2..) => {
            let at = chance.below(pairs.len() - 1);
            pairs.swap(at, at + 1);
        }
        _ => {
            let bad = bad_pair(chance, plan, &entry);
            let pairs = &mut plan.entries[place].pairs;
            pairs.push(bad);
            pairs.sort();
        }
    }
    plan.bytes()
}

/// A pair that names no occurrence or a wrong "to", mostly a near miss.
fn bad_pair(chance: &mut Chance, plan: &Plan, entry: &Entry) -> (u8, u8) {
    let (all, settable) = (plan.occurrences(entry), plan.settable(entry));
    let slots = entry.children.len() + 2;
    loop {
        let near = |chance: &mut Chance| match chance.below(3) {
            0 => chance.byte(),
            1 => chance.below(8 * slots) as u8,
            _ => all.get(chance.below(all.len().max(1))).copied().unwrap_or(0),
        };
        let pair = (near(chance), near(chance));
        if !settable.contains(&pair.0) || !all.contains(&pair.1) {
            return pair;
        }
    }
}

/// A kind without production: all of its own go to another kind, or a new kind comes.
fn spoil_left(chance: &mut Chance, plan: &mut Plan) -> Vec<u8> {
    if plan.kinds.len() < KINDS && chance.once_in(2) {
        plan.kind(0, 0);
    } else {
        let gone = chance.below(plan.kinds.len()) as u8;
        let other = chance.below(plan.kinds.len()) as u8;
        for entry in plan.entries.iter_mut().filter(|entry| entry.left == gone) {
            entry.left = other;
            entry.pairs.clear();
        }
        if other == gone {
            plan.kind(0, 0);
        }
    }
    plan.bytes()
}

/// Two or more faults at once, so that the order of refusals decides: each bit of `which` is one,
/// from 7, 8, 6, 5 to one of the trailer's. Pairs are spoilt first, while their occurrences exist.
pub fn several(chance: &mut Chance, plan: &Plan, which: usize) -> Vec<u8> {
    let mut plan = plan.clone();
    let spoilers = [spoil_pairs, spoil_left, spoil_children, spoil_kind];
    for (bit, spoil) in spoilers.iter().enumerate() {
        if which >> bit & 1 == 1 {
            spoil(chance, &mut plan);
        }
    }
    let mut bytes = plan.bytes();
    if which >> spoilers.len() & 1 == 1 {
        let number = chance.between(2, 4);
        spoil_trailer(chance, &mut bytes, number);
    }
    bytes
}

/// Bytes that were a book, or never were one: flips, cuts, counts past the end, noise.
pub fn noise(chance: &mut Chance) -> Vec<u8> {
    let plan = lawful::book(chance);
    let mut bytes = plan.bytes();
    match chance.below(6) {
        0 => {
            let length = chance.below(100);
            chance.bytes(length)
        }
        1 => {
            let at = chance.below(bytes.len());
            bytes[at] ^= 1 << chance.below(8);
            bytes
        }
        2 => {
            let at = chance.below(bytes.len());
            bytes[at] = chance.byte();
            bytes
        }
        3 => bytes[..chance.below(bytes.len())].to_vec(),
        4 => bytes[chance.below(bytes.len())..].to_vec(),
        _ => {
            // A number of children or of dependences that runs past the end.
            let place = chance.below(plan.entries.len());
            let children = plan.entries[place].children.len();
            let count = plan.offset(place) + 1 + if chance.once_in(2) { 0 } else { 1 + children };
            bytes[count] = *chance.pick(&[255, 254, 128, bytes[count].wrapping_add(1)]);
            bytes
        }
    }
}
