//! The build: refusals 1 to 13, sets and tables in lent slices.

use crate::book::{check_book, Grammar, Production};
use crate::entries::{choice, choices, down_start, up_start};
use crate::faults::wrong;
use crate::limits::{ENTRY, LABELS, MEMBERS};
use crate::passes::{sets, Sets};
use crate::refusal::{refuse, Refusal};
use crate::ties::{Code, Ties, NONE};

/// The six slices lent to the build.
#[derive(Clone, Debug, Default, PartialEq, Eq)]
pub struct Lent {
    pub plausible: Vec<u32>,
    pub plausible_counts: Vec<u8>,
    pub feasible: Vec<u32>,
    pub feasible_counts: Vec<u8>,
    pub up: Vec<u8>,
    pub down: Vec<u8>,
}

impl Lent {
    fn zero(&mut self) {
        self.plausible.fill(0);
        self.plausible_counts.fill(0);
        self.feasible.fill(0);
        self.feasible_counts.fill(0);
        self.up.fill(0);
        if !wrong("down-not-zeroed") {
            self.down.fill(0);
        }
    }
}

/// The numbers of up and down entries, or the refusal that applies first.
pub fn build(book: &[u8], lent: &mut Lent) -> Result<(u64, u64), Refusal> {
    let grammar = check_book(book)?;
    let n = grammar.kinds.len();
    let short_sets = lent.plausible.len() < MEMBERS * n || lent.feasible.len() < MEMBERS * n;
    if short_sets || lent.plausible_counts.len() < n || lent.feasible_counts.len() < n {
        return refuse(9, 0);
    }
    match fitting(&grammar, lent) {
        Ok((sets, up, down)) => {
            write_sets(&sets, lent);
            write_tables(&grammar, &sets, lent);
            if wrong("tail-touched") {
                lent.up[up as usize..].fill(0);
            }
            Ok((up, down))
        }
        Err(refusal) => {
            lent.zero();
            Err(refusal)
        }
    }
}

pub fn counts(sets: &[Vec<Code>]) -> Vec<u8> {
    sets.iter().map(|set| set.len() as u8).collect()
}

/// The sets, if they and the tables over them fit: refusals 10 to 13.
fn fitting(grammar: &Grammar, lent: &Lent) -> Result<(Sets, u64, u64), Refusal> {
    let sets = sets(grammar)?;
    let (plausible, feasible) = (counts(&sets.plausible), counts(&sets.feasible));
    let all = grammar.productions.len();
    let up = up_start(grammar, all, &plausible);
    let down = down_start(grammar, all, &plausible, &feasible);
    let down_over = down > (lent.down.len() / ENTRY) as u64;
    if up > lent.up.len() as u64 && !(wrong("thirteen-first") && down_over) {
        return refuse(12, 0);
    }
    if down_over {
        return refuse(13, 0);
    }
    Ok((sets, up, down))
}

fn write_sets(sets: &Sets, lent: &mut Lent) {
    let places = [(&sets.plausible, &mut lent.plausible), (&sets.feasible, &mut lent.feasible)];
    for (sets, slice) in places {
        for (set, place) in sets.iter().zip(slice.chunks_mut(MEMBERS)) {
            if !wrong("unused-places-stay") {
                place.fill(0);
            }
            place[..set.len()].copy_from_slice(set);
        }
    }
    lent.plausible_counts[..sets.plausible.len()].copy_from_slice(&counts(&sets.plausible));
    lent.feasible_counts[..sets.feasible.len()].copy_from_slice(&counts(&sets.feasible));
}

/// All choices of ranks, the last child's running fastest.
fn all_choices(production: &Production, plausible: &[u8]) -> Vec<Vec<u8>> {
    let mut ranks = vec![Vec::new()];
    for &child in &production.children {
        let longer = |r: &Vec<u8>| (0..plausible[child]).map(|rank| [&r[..], &[rank]].concat()).collect::<Vec<_>>();
        ranks = ranks.iter().flat_map(longer).collect();
    }
    ranks
}

fn rank(set: &[Code], code: Code) -> u8 {
    set.iter().position(|&member| member == code).expect("the passes are complete") as u8
}

fn write_tables(grammar: &Grammar, sets: &Sets, lent: &mut Lent) {
    let (plausible, feasible) = (counts(&sets.plausible), counts(&sets.feasible));
    for (number, production) in grammar.productions.iter().enumerate() {
        let settings = grammar.settings_by_slot(production);
        let base = Ties::base(grammar, production);
        let first_up = up_start(grammar, number, &plausible);
        let first_down = down_start(grammar, number, &plausible, &feasible);
        for ranks in all_choices(production, &plausible) {
            let mut ties = base;
            for (place, &child) in production.children.iter().enumerate() {
                let code = sets.plausible[child][ranks[place] as usize];
                ties = ties.joined(place + 1, settings[place + 1], code);
            }
            let chosen = choice(production, &plausible, &ranks);
            let result = rank(&sets.plausible[production.left], ties.on(0, settings[0]));
            lent.up[(first_up + chosen) as usize] = result;
            for (over, &code) in sets.feasible[production.left].iter().enumerate() {
                let number = first_down + over as u64 * choices(production, &plausible) + chosen;
                let entry = down_entry(grammar, production, sets, ties.joined(0, settings[0], code));
                lent.down[number as usize * ENTRY..][..ENTRY].copy_from_slice(&entry);
            }
        }
    }
}

fn down_entry(grammar: &Grammar, production: &Production, sets: &Sets, ties: Ties) -> [u8; ENTRY] {
    let mut entry = [NONE; ENTRY];
    entry[..LABELS].copy_from_slice(&ties.0);
    for (place, &child) in production.children.iter().enumerate() {
        let code = ties.on(place + 1, grammar.kinds[child].settings);
        entry[LABELS + place] = rank(&sets.feasible[child], code);
    }
    entry
}
