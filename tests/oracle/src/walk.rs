//! The sheet call: refusals 1 to 9 and 20 to 25, ranks and group numbers over anyone's tables.

use crate::book::{check_book, Grammar};
use crate::entries::{choice, choices, down_start, up_start};
use crate::faults::{limit, wrong};
use crate::limits::{ENTRY, LABELS, MEMBERS, SETTINGS};
use crate::refusal::{refuse, Refusal};
use crate::sheet::{read_sheet, settings, settings_at, Node};

/// The tables a sheet is numbered by, perhaps a stranger's.
#[derive(Clone, Debug, Default)]
pub struct Tables {
    pub plausible_counts: Vec<u8>,
    pub feasible_counts: Vec<u8>,
    pub up: Vec<u8>,
    pub down: Vec<u8>,
}

/// What the two choices found at a node.
#[derive(Clone, Copy)]
struct Chosen {
    plausible: u8,
    feasible: u8,
    entry: u64,
}

/// Numbers of nodes, settings and groups, or the refusal that applies first.
pub fn number_sheet(
    book: &[u8],
    sheet: &[u8],
    tables: &Tables,
    lent_nodes: &mut [u64],
    lent_groups: &mut [u16],
) -> Result<(usize, usize, usize), Refusal> {
    let grammar = check_book(book)?;
    let n = grammar.kinds.len();
    if wrong("nine-after-sheet") {
        read_sheet(&grammar, sheet)?;
    }
    if tables.plausible_counts.len() < n || tables.feasible_counts.len() < n {
        return refuse(9, 0);
    }
    let nodes = read_sheet(&grammar, sheet)?;
    let settings = settings(&grammar, &nodes);
    let per_node = if wrong("two-places") { 2 } else { 3 };
    if lent_nodes.len() < per_node * nodes.len() || lent_groups.len() < settings {
        if wrong("room-after-tables") {
            choose_upward(&grammar, &nodes, tables)?;
        }
        return refuse(24, 0);
    }
    if wrong("early-writes") {
        lent_groups[..settings].fill(0);
    }
    check_counts(tables, n)?;
    let plausible = choose_upward(&grammar, &nodes, tables)?;
    let chosen = choose_downward(&grammar, &nodes, tables, &plausible)?;
    let (numbers, groups) = number_groups(&grammar, &nodes, tables, &chosen);
    for (place, at) in lent_nodes.chunks_mut(3).zip(&chosen) {
        let three = [at.plausible as u64, at.feasible as u64, at.entry];
        place.copy_from_slice(&three[..place.len()]);
    }
    for (place, number) in lent_groups.iter_mut().zip(numbers.concat()) {
        *place = number as u16;
    }
    Ok((nodes.len(), settings, groups))
}

/// Refusal 25 for a count over that of a set's places, of every kind, whether or not the sheet uses it.
fn check_counts(tables: &Tables, n: usize) -> Result<(), Refusal> {
    let most = limit("count", MEMBERS);
    let read = if wrong("counts-past-n") { usize::MAX } else { n };
    let mut counts = tables.plausible_counts.iter().take(read).chain(tables.feasible_counts.iter().take(read));
    if counts.any(|&count| count as usize > most) {
        return refuse(25, 0);
    }
    Ok(())
}

/// The plausible ranks of a node's children.
fn child_ranks(node: &Node, plausible: &[u8]) -> Vec<u8> {
    node.children.iter().map(|&child| plausible[child]).collect()
}

/// The upward choice, last node first.
fn choose_upward(grammar: &Grammar, nodes: &[Node], tables: &Tables) -> Result<Vec<u8>, Refusal> {
    let counts = &tables.plausible_counts;
    let mut plausible = vec![0; nodes.len()];
    let mut fault = None;
    for (position, node) in nodes.iter().enumerate().rev() {
        let production = &grammar.productions[node.production];
        let entry =
            up_start(grammar, node.production, counts) + choice(production, counts, &child_ranks(node, &plausible));
        let read = tables.up.get(entry as usize).filter(|&&rank| rank < counts[production.left]);
        match read {
            Some(&rank) => plausible[position] = rank,
            None if wrong("upward-from-first") => fault = Some(position),
            None => return refuse(25, position),
        }
    }
    fault.map_or(Ok(plausible), |position| refuse(25, position))
}

/// The downward choice: the root's feasible rank is its plausible rank, each child's is read at its parent.
fn choose_downward(
    grammar: &Grammar,
    nodes: &[Node],
    tables: &Tables,
    plausible: &[u8],
) -> Result<Vec<Chosen>, Refusal> {
    let counts = &tables.feasible_counts;
    if plausible[0] >= counts[grammar.start] && !wrong("root-rank-unchecked") {
        return refuse(25, 0);
    }
    let mut feasible = vec![0; nodes.len()];
    feasible[0] = if wrong("feasible-from-0") { 0 } else { plausible[0] };
    let mut chosen = Vec::new();
    for (position, node) in nodes.iter().enumerate() {
        let entry = down_number(grammar, node, tables, &child_ranks(node, plausible), feasible[position]);
        if (entry + 1) * ENTRY as u64 > tables.down.len() as u64 {
            return refuse(25, position);
        }
        let ranks = &tables.down[entry as usize * ENTRY + LABELS..];
        for (&child, &rank) in node.children.iter().zip(ranks) {
            if rank >= counts[grammar.productions[nodes[child].production].left] {
                return refuse(25, if wrong("bad-rank-at-child") { child } else { position });
            }
            feasible[child] = rank;
        }
        chosen.push(Chosen { plausible: plausible[position], feasible: feasible[position], entry });
    }
    Ok(chosen)
}

fn down_number(grammar: &Grammar, node: &Node, tables: &Tables, ranks: &[u8], feasible: u8) -> u64 {
    let production = &grammar.productions[node.production];
    let plausible = &tables.plausible_counts;
    down_start(grammar, node.production, plausible, &tables.feasible_counts)
        + feasible as u64 * choices(production, plausible)
        + choice(production, plausible, ranks)
}

/// Group numbers by node and setting, and how many there are.
fn number_groups(grammar: &Grammar, nodes: &[Node], tables: &Tables, chosen: &[Chosen]) -> (Vec<Vec<usize>>, usize) {
    let mut numbers: Vec<Vec<usize>> = vec![Vec::new(); nodes.len()];
    let mut next = 0;
    let mut before = Vec::new();
    for (position, node) in nodes.iter().enumerate() {
        let labels = &tables.down[chosen[position].entry as usize * ENTRY..][..LABELS];
        // Label and number of the occurrences of this instance that have their number.
        let own = numbers[position].iter().enumerate();
        let mut earlier: Vec<(u8, usize)> = own.map(|(setting, &number)| (labels[setting], number)).collect();
        if wrong("across-instances") {
            earlier.extend(&before);
        }
        let slots = std::iter::once(&position).chain(&node.children).enumerate();
        for (slot, &at) in slots.skip(if position == 0 { 0 } else { 1 }) {
            for setting in 0..settings_at(grammar, &nodes[at]) {
                let label = labels[SETTINGS * slot + setting];
                let number = same_label(&earlier, label).unwrap_or_else(|| {
                    next += 1;
                    next - 1
                });
                earlier.push((label, number));
                numbers[at].push(if wrong("modulo-256") { number % 256 } else { number });
            }
        }
        before = earlier;
    }
    (numbers, next)
}

fn same_label(earlier: &[(u8, usize)], label: u8) -> Option<usize> {
    let mut same = earlier.iter().filter(|(other, _)| *other == label);
    let found = if wrong("last-earlier") { same.next_back() } else { same.next() };
    found.map(|&(_, number)| number)
}
