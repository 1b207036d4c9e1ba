//! Demand 3: where a subtree is swapped for one that groups alike at its node, every node outside
//! keeps its ranks, and settings outside, the node's own included, share as before.

use crate::batches::{compare, Side};
use crate::show::hex;
use crate::tally::Tally;
use generate::chance::Chance;
use generate::requests::number_request;
use generate::swaps::{swap, Swap};
use oracle::book::check_book;
use oracle::chains::{first_settings, same_sharing};
use oracle::limits::SETTINGS;
use oracle::sheet::{read_sheet, settings_at};

/// An accepted answer of the sheet call, read back from its lines.
pub struct Answer {
    pub nodes: Vec<u64>,
    pub groups: Vec<u64>,
}

pub fn read(answer: &str) -> Option<Answer> {
    let mut lines = answer.lines();
    let numbers = |line: &str| line.split_whitespace().map(|word| word.parse().ok()).collect::<Option<Vec<_>>>();
    lines.next()?.starts_with("ok ").then_some(())?;
    Some(Answer { nodes: numbers(lines.next()?)?, groups: numbers(lines.next()?)? })
}

/// What is seen from outside: the ranks of the nodes around the swap, their entries, and the group
/// numbers of their settings, the node's own included.
pub struct Outside {
    pub ranks: Vec<u64>,
    pub entries: Vec<u64>,
    pub groups: Vec<u64>,
}

pub fn outside(swap: &Swap, sheet: &[u8], end: usize, answer: &Answer) -> Outside {
    let grammar = check_book(&swap.book).expect("a lawful book");
    let nodes = read_sheet(&grammar, sheet).expect("a grown sheet");
    let firsts = first_settings(&grammar, &nodes);
    let mut seen = Outside { ranks: Vec::new(), entries: Vec::new(), groups: Vec::new() };
    for position in (0..=swap.node).chain(end..nodes.len()) {
        let at = &answer.nodes[3 * position..];
        seen.ranks.extend(&at[..2]);
        if position != swap.node {
            seen.entries.push(at[2]);
        }
        let settings = settings_at(&grammar, &nodes[position]);
        seen.groups.extend(&answer.groups[firsts[position]..][..settings]);
    }
    seen
}

pub fn kept(swap: &Swap, old: &Answer, new: &Answer) -> bool {
    let before = outside(swap, &swap.old, swap.old_end, old);
    let after = outside(swap, &swap.new, swap.new_end, new);
    before.ranks == after.ranks && before.entries == after.entries && same_sharing(&before.groups, &after.groups)
}

/// The sheet call for the vehicle before and after.
pub fn requests(swap: &Swap) -> [Vec<u8>; 2] {
    [&swap.old, &swap.new].map(|sheet| {
        let (nodes, groups) = (vec![9; 3 * sheet.len()], vec![9; SETTINGS * sheet.len()]);
        number_request(&swap.book, sheet, &swap.tables, &nodes, &groups)
    })
}

/// So many swaps, both vehicles of each numbered by the program.
pub fn run(trial: &Side, seed: u64, count: u64, tally: &mut Tally) -> Result<(), String> {
    let swaps: Vec<Swap> = (0..count).map(|index| swap(&mut Chance::new(seed ^ 0x7377_6170, index))).collect();
    let requests: Vec<Vec<u8>> = swaps.iter().flat_map(requests).collect();
    let name = |place: usize| format!("swap {} of seed {seed}", place / 2);
    let answers = compare(trial, &requests, name, tally)?;
    for (place, (swap, answers)) in swaps.iter().zip(answers.chunks(2)).enumerate() {
        let wrong = match (read(&answers[0]), read(&answers[1])) {
            (Some(old), Some(new)) if kept(swap, &old, &new) => continue,
            (Some(_), Some(_)) => "shows outside",
            _ => "is refused",
        };
        let [old, new] = [2 * place, 2 * place + 1].map(|at| hex(&requests[at]));
        return Err(format!("{} at node {} {wrong}\nrequest {old}\nrequest {new}", name(2 * place), swap.node));
    }
    Ok(())
}
