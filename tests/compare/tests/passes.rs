//! The oracle's passes against slower ways to the same sets, on small random books.

use generate::chance::Chance;
use generate::lawful;
use oracle::book::{check_book, Grammar};
use oracle::build::counts;
use oracle::entries::down_start;
use oracle::{figure, passes};

/// Small random grammars whose sets stay within 64 members.
fn small_grammars(seed: u64, count: u64) -> impl Iterator<Item = Grammar> {
    let grammar = move |index| check_book(&lawful::small_book(&mut Chance::new(seed, index)).bytes()).unwrap();
    (0..count).map(grammar)
}

#[test]
fn as_fig_3_does_it() {
    for grammar in small_grammars(11, 600) {
        assert_eq!(passes::sets(&grammar).unwrap(), figure::sets(&grammar), "{grammar:?}");
    }
}

#[test]
fn fig_3_over_any_lawful_book() {
    let mut compared = 0;
    for index in 0..400 {
        let grammar = check_book(&lawful::book(&mut Chance::new(12, index)).bytes()).unwrap();
        let sets = match passes::sets(&grammar) {
            Ok(sets) => sets,
            Err(_) => continue,
        };
        let counts = (counts(&sets.plausible), counts(&sets.feasible));
        if down_start(&grammar, grammar.productions.len(), &counts.0, &counts.1) <= 5000 {
            assert_eq!(sets, figure::sets(&grammar), "index {index}");
            compared += 1;
        }
    }
    assert!(compared > 200, "only {compared} books were small enough");
}

#[test]
fn plausible_is_what_trees_show() {
    for grammar in small_grammars(13, 400) {
        let sets = passes::sets(&grammar).unwrap();
        for (set, grown) in sets.plausible.iter().zip(figure::grown(&grammar)) {
            assert_eq!(*set, grown.into_keys().collect::<Vec<_>>(), "{grammar:?}");
        }
    }
}
