//! The check of demand 3 sees what it is there to see, and holds for the oracle.

use compare::swaps::{kept, outside, read, requests};
use generate::chance::Chance;
use generate::swaps::{swap, Swap};
use oracle::trial::answer;

fn swaps() -> Vec<Swap> {
    (0..300).map(|index| swap(&mut Chance::new(31, index))).collect()
}

#[test]
fn swaps_are_of_many_kinds() {
    let swaps = swaps();
    let count = |wanted: fn(&&Swap) -> bool| swaps.iter().filter(wanted).count();
    assert!(count(|swap| swap.node > 0) > 100, "inside the tree");
    assert!(count(|swap| swap.old_end < swap.old.len()) > 50, "with something behind");
    assert!(count(|swap| swap.old_end != swap.new_end) > 100, "of another size");
}

#[test]
fn the_oracle_keeps_what_is_outside() {
    for swap in swaps() {
        let [old, new] = requests(&swap).map(|request| read(&answer(&request)).unwrap());
        assert!(kept(&swap, &old, &new));
    }
}

#[test]
fn a_change_outside_is_seen() {
    let inside = swaps().into_iter().filter(|swap| swap.node > 0).take(50);
    for swap in inside {
        let [old, mut new] = requests(&swap).map(|request| read(&answer(&request)).unwrap());
        for place in 0..3 {
            new.nodes[place] += 1;
            assert!(!kept(&swap, &old, &new), "place {place} of the root");
            new.nodes[place] -= 1;
        }
        let groups = outside(&swap, &swap.old, swap.old_end, &old).groups;
        let one_group = groups.iter().all(|&group| group == groups[0]);
        new.groups.fill(0);
        assert_eq!(kept(&swap, &old, &new), one_group, "all settings put in one group");
    }
}
