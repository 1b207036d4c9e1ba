//! Tables as they are built, a stranger's, and built ones with damage where the sheet reads them.

use crate::chance::Chance;
use oracle::book::{check_book, Grammar};
use oracle::build::{build, Lent};
use oracle::entries::{choice, down_start, up_start};
use oracle::limits::{CHILDREN, ENTRY, LABELS, MEMBERS, SETTINGS};
use oracle::sheet::{read_sheet, Node};
use oracle::trial::room;
use oracle::walk::{number_sheet, Tables};

/// The tables of a book, exactly as long as they need be, if they fit a request.
pub fn built(book: &[u8]) -> Option<Tables> {
    let n = check_book(book).ok()?.kinds.len();
    let mut lent = Lent {
        plausible: vec![0; MEMBERS * n],
        plausible_counts: vec![0; n],
        feasible: vec![0; MEMBERS * n],
        feasible_counts: vec![0; n],
        up: vec![0; room::UP],
        down: vec![0; room::DOWN],
    };
    let (up, down) = build(book, &mut lent).ok()?;
    let Lent { plausible_counts, feasible_counts, .. } = lent;
    lent.up.truncate(up as usize);
    lent.down.truncate(down as usize * ENTRY);
    Some(Tables { plausible_counts, feasible_counts, up: lent.up, down: lent.down })
}

/// A stranger's tables: counts as they please, ranks mostly below them, labels of any kind.
pub fn strange(chance: &mut Chance, grammar: &Grammar) -> Option<Tables> {
    let n = grammar.kinds.len();
    let most = *chance.pick(&[1, 2, 3, MEMBERS]);
    let mut count = || if chance.once_in(12) { MEMBERS as u8 } else { chance.between(1, most) as u8 };
    let plausible: Vec<u8> = (0..n).map(|_| count()).collect();
    let feasible: Vec<u8> = (0..n).map(|_| count()).collect();
    let all = grammar.productions.len();
    let (up, down) = (up_start(grammar, all, &plausible), down_start(grammar, all, &plausible, &feasible));
    if up > room::UP as u64 || down > (room::DOWN / ENTRY) as u64 {
        return None;
    }
    let mut tables = Tables { plausible_counts: plausible, feasible_counts: feasible, ..Tables::default() };
    for (number, production) in grammar.productions.iter().enumerate() {
        let below = |chance: &mut Chance, count: u8| chance.below(count as usize) as u8;
        let ups = up_start(grammar, number + 1, &tables.plausible_counts) as usize;
        while tables.up.len() < ups {
            tables.up.push(below(chance, tables.plausible_counts[production.left]));
        }
        let downs = down_start(grammar, number + 1, &tables.plausible_counts, &tables.feasible_counts) as usize;
        while tables.down.len() < downs * ENTRY {
            let labels = strange_labels(chance);
            tables.down.extend(labels);
            let mut ranks = [255; CHILDREN];
            for (rank, &child) in ranks.iter_mut().zip(&production.children) {
                *rank = below(chance, tables.feasible_counts[child]);
            }
            tables.down.extend(ranks);
        }
    }
    Some(tables)
}

/// Labels that no build gives: out of order, far too high, 255 where a label stands.
fn strange_labels(chance: &mut Chance) -> Vec<u8> {
    let few = chance.between(1, 12);
    let offset = chance.byte();
    let style = chance.below(3);
    let mut label = || match style {
        0 => chance.byte(),
        1 => *chance.pick(&[0, 1, 255, 255, LABELS as u8, 254]),
        _ => offset.wrapping_sub(chance.below(few) as u8),
    };
    (0..LABELS).map(|_| label()).collect()
}

/// The labels of every entry renamed, each entry in its own way: no build gives them, yet the
/// groups are the same.
pub fn renamed(chance: &mut Chance, tables: &mut Tables) {
    for entry in tables.down.chunks_exact_mut(ENTRY) {
        let (turn, flip) = (chance.byte(), chance.byte());
        for label in &mut entry[..LABELS] {
            *label = label.wrapping_add(turn) ^ flip;
        }
    }
}

/// Where each node of a sheet reads the tables: its up entry and its down entry.
struct Reads {
    nodes: Vec<Node>,
    up: Vec<usize>,
    down: Vec<usize>,
}

fn reads(book: &[u8], sheet: &[u8], tables: &Tables) -> Option<Reads> {
    let grammar = check_book(book).ok()?;
    let nodes = read_sheet(&grammar, sheet).ok()?;
    let mut places = vec![0; 3 * nodes.len()];
    let mut groups = vec![0; SETTINGS * nodes.len()];
    number_sheet(book, sheet, tables, &mut places, &mut groups).ok()?;
    let counts = &tables.plausible_counts;
    let up = |node: &Node| {
        let ranks: Vec<u8> = node.children.iter().map(|&child| places[3 * child] as u8).collect();
        let production = &grammar.productions[node.production];
        (up_start(&grammar, node.production, counts) + choice(production, counts, &ranks)) as usize
    };
    let up = nodes.iter().map(up).collect();
    let down = (0..nodes.len()).map(|node| places[3 * node + 2] as usize).collect();
    Some(Reads { nodes, up, down })
}

/// One to three faults in the tables, at entries that the sheet reads.
pub fn damaged(chance: &mut Chance, book: &[u8], sheet: &[u8], tables: &mut Tables) {
    let reads = match reads(book, sheet, tables) {
        Some(reads) => reads,
        None => return,
    };
    let parents: Vec<usize> = (0..reads.nodes.len()).filter(|&n| !reads.nodes[n].children.is_empty()).collect();
    for _ in 0..chance.between(1, 3) {
        let any = chance.below(reads.nodes.len());
        let node = if parents.is_empty() || chance.once_in(3) { any } else { *chance.pick(&parents) };
        spoil(chance, &reads, node, tables);
    }
}

fn spoil(chance: &mut Chance, reads: &Reads, node: usize, tables: &mut Tables) {
    let (up, down) = (reads.up[node], reads.down[node] * ENTRY);
    let kind = chance.below(tables.plausible_counts.len());
    let children = reads.nodes[node].children.len();
    let one_less = |count: &u8| count.saturating_sub(1);
    match chance.below(10) {
        0 => tables.plausible_counts[kind] = *chance.pick(&[65, 66, 255]),
        1 => tables.feasible_counts[kind] = *chance.pick(&[65, 66, 255]),
        2 => tables.plausible_counts[kind] = one_less(&tables.plausible_counts[kind]),
        3 => tables.feasible_counts[kind] = one_less(&tables.feasible_counts[kind]),
        4 => tables.up.truncate(up),
        5 => tables.down.truncate(down + chance.below(ENTRY)),
        6 if up < tables.up.len() => {
            let near = tables.up[up].wrapping_add(chance.between(1, 3) as u8);
            tables.up[up] = *chance.pick(&[255, 64, near, near]);
        }
        7 | 8 if children > 0 && down + ENTRY <= tables.down.len() => {
            let rank = &mut tables.down[down + LABELS + chance.below(children)];
            *rank = *chance.pick(&[255, 64, rank.wrapping_add(1)]);
        }
        _ if down + ENTRY <= tables.down.len() => {
            let label = down + chance.below(LABELS);
            tables.down[label] = *chance.pick(&[255, 0, 1, LABELS as u8 - 1]);
        }
        _ => tables.down.clear(),
    }
}
