//! The grammar book: refusals 1 to 8, and the grammar read off an accepted book.

use crate::faults::{limit, wrong};
use crate::limits::{CHILDREN, KINDS, PRODUCTIONS, SETTINGS, TRAILER};
use crate::refusal::{refuse, Refusal};

/// The article's Fig. 1, settings in the order jk, abcd, efgh.
pub const FIG_1: [u8; 66] = [
    2, 0, 4, 5, 4, 5, // kinds
    0, 1, 1, 2, 0, 9, 1, 11, // P0
    1, 1, 2, 4, 1, 9, 3, 11, 8, 0, 10, 2, // P1
    1, 1, 2, 5, 1, 9, 3, 9, 3, 11, 8, 0, 10, 2, // P2
    2, 0, 2, 1, 0, 3, 2, // P3
    2, 0, 2, 1, 2, 3, 0, // P4
    1, 0, 3, 0, 5, 0, 0, 0, 54, 0, 48, 0, // trailer
];

#[derive(Clone, Debug)]
pub struct Kind {
    pub settings: usize,
    pub inherited: u8,
}

#[derive(Clone, Debug)]
pub struct Production {
    pub left: usize,
    pub children: Vec<usize>,
    /// Dependences as (to, from), each an occurrence: slot times 8 plus setting.
    pub pairs: Vec<(u8, u8)>,
}

#[derive(Clone, Debug)]
pub struct Grammar {
    pub kinds: Vec<Kind>,
    pub productions: Vec<Production>,
    pub start: usize,
}

impl Production {
    /// The kind that stands in a slot: the left kind in slot 0, then the children.
    pub fn kind_in(&self, slot: usize) -> Option<usize> {
        if slot == 0 {
            Some(self.left)
        } else {
            self.children.get(slot - 1).copied()
        }
    }
}

impl Grammar {
    /// The number of settings in each slot of a production, slot 0 first.
    pub fn settings_by_slot(&self, production: &Production) -> Vec<usize> {
        (0..=production.children.len())
            .filter_map(|slot| production.kind_in(slot))
            .map(|kind| self.kinds[kind].settings)
            .collect()
    }
}

/// A production entry as its own counts cut it out, whatever its bytes say.
struct Entry<'a> {
    left: u8,
    children: &'a [u8],
    pairs: &'a [u8],
}

/// Cuts off one entry; nothing when it runs past the end.
fn cut(bytes: &[u8]) -> Option<(Entry<'_>, &[u8])> {
    let (&left, rest) = bytes.split_first()?;
    let (&k, rest) = rest.split_first()?;
    let children = rest.get(..k as usize)?;
    let (&d, rest) = rest[k as usize..].split_first()?;
    let pairs = rest.get(..2 * d as usize)?;
    Some((Entry { left, children, pairs }, &rest[2 * d as usize..]))
}

/// All entries, if exactly so many fill the bytes.
fn cut_all(mut bytes: &[u8], count: usize) -> Option<Vec<Entry<'_>>> {
    let mut entries = Vec::new();
    for _ in 0..count {
        let (entry, rest) = cut(bytes)?;
        entries.push(entry);
        bytes = rest;
    }
    bytes.is_empty().then_some(entries)
}

fn bad_kind(kind: &[u8], is_start: bool) -> bool {
    let (settings, mask) = (kind[0], kind[1]);
    settings as usize > SETTINGS || (mask as u32) >> settings != 0 || (is_start && mask != 0)
}

fn bad_kinds(entry: &Entry, kinds: usize, start: usize) -> bool {
    let child_is_bad = |&child: &u8| child as usize >= kinds || (child as usize == start && !wrong("start-as-child"));
    let many = entry.children.len() > limit("children", CHILDREN);
    entry.left as usize >= kinds || many || entry.children.iter().any(child_is_bad)
}

/// The kind entry (settings, mask) that an occurrence belongs to, if the occurrence exists.
fn kind_of<'a>(entry: &Entry, kinds: &'a [u8], occurrence: u8) -> Option<&'a [u8]> {
    let (slot, setting) = ((occurrence >> 3) as usize, occurrence & 7);
    let kind = if slot == 0 { entry.left } else { *entry.children.get(slot - 1)? };
    let kind = &kinds[2 * kind as usize..][..2];
    (setting < kind[0]).then_some(kind)
}

fn may_be_set(entry: &Entry, kinds: &[u8], to: u8) -> bool {
    kind_of(entry, kinds, to).map_or(false, |kind| {
        let inherited = kind[1] >> (to & 7) & 1 == 1;
        inherited == (to >> 3 != 0)
    })
}

fn bad_pairs(entry: &Entry, kinds: &[u8]) -> bool {
    let pairs: Vec<(u8, u8)> = entry.pairs.chunks(2).map(|pair| (pair[0], pair[1])).collect();
    let lawful = |&(to, from): &(u8, u8)| may_be_set(entry, kinds, to) && kind_of(entry, kinds, from).is_some();
    let rises = |two: &[(u8, u8)]| two[0] < two[1] || (wrong("equal-pairs") && two[0] == two[1]);
    !pairs.iter().all(lawful) || !pairs.windows(2).all(rises)
}

/// Refusals 5 to 8, each sought over the whole book before the next.
fn check_parts(kinds: &[u8], entries: &[Entry], start: usize) -> Result<(), Refusal> {
    let n = kinds.len() / 2;
    if let Some(kind) = (0..n).find(|&kind| bad_kind(&kinds[2 * kind..], kind == start)) {
        return refuse(5, kind);
    }
    if wrong("pairs-before-kinds") {
        let bad = |e: &Entry| bad_kinds(e, n, start) || bad_pairs(e, kinds);
        if let Some(place) = entries.iter().position(bad) {
            return refuse(if bad_kinds(&entries[place], n, start) { 6 } else { 7 }, place);
        }
    }
    if let Some(place) = entries.iter().position(|entry| bad_kinds(entry, n, start)) {
        return refuse(6, place);
    }
    if let Some(place) = entries.iter().position(|entry| bad_pairs(entry, kinds)) {
        return refuse(7, place);
    }
    if let Some(kind) = (0..n).find(|&kind| entries.iter().all(|entry| entry.left as usize != kind)) {
        return refuse(8, kind);
    }
    Ok(())
}

pub fn check_book(book: &[u8]) -> Result<Grammar, Refusal> {
    if book.len() < TRAILER {
        return refuse(1, 0);
    }
    let trailer = book.len() - TRAILER;
    let mut fields = book[trailer..].chunks(2).map(|b| u16::from_le_bytes([b[0], b[1]]) as usize);
    let mut field = || fields.next().unwrap();
    let (edition, n, p, start) = (field(), field(), field(), field());
    let (back_to_kinds, back_to_productions) = (field(), field());
    if (if wrong("edition-byte") { edition & 255 } else { edition }) != 1 {
        return refuse(2, 0);
    }
    if n == 0 || n > limit("kinds", KINDS) || p == 0 || p > limit("productions", PRODUCTIONS) || start >= n {
        return refuse(3, 0);
    }
    if back_to_kinds != trailer || back_to_productions + 2 * n != trailer {
        return refuse(4, 0);
    }
    let (kinds, rest) = book[..trailer].split_at(2 * n);
    let entries = match cut_all(rest, p) {
        Some(entries) => entries,
        None => return refuse(4, 0),
    };
    check_parts(kinds, &entries, start)?;
    Ok(grammar(kinds, &entries, start))
}

fn grammar(kinds: &[u8], entries: &[Entry], start: usize) -> Grammar {
    let kinds = kinds.chunks(2).map(|kind| Kind { settings: kind[0] as usize, inherited: kind[1] });
    let productions = entries.iter().map(|entry| Production {
        left: entry.left as usize,
        children: entry.children.iter().map(|&child| child as usize).collect(),
        pairs: entry.pairs.chunks(2).map(|pair| (pair[0], pair[1])).collect(),
    });
    Grammar { kinds: kinds.collect(), productions: productions.collect(), start }
}
