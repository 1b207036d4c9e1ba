//! A fault of a given number is mostly refused with it, and a lawful book never.

use generate::chance::Chance;
use generate::{damage, lawful, requests};
use oracle::book::check_book;

#[test]
fn lawful_books_are_accepted() {
    for index in 0..2000 {
        let book = lawful::book(&mut Chance::new(3, index)).bytes();
        assert!(check_book(&book).is_ok(), "seed 3, index {index}");
    }
}

#[test]
fn a_fault_has_its_number() {
    for number in 1..=8 {
        let hits = |index: &u64| {
            let chance = &mut Chance::new(number as u64, *index);
            let plan = lawful::book(chance);
            matches!(check_book(&damage::faulty(chance, &plan, number)), Err(r) if r.number == number as u16)
        };
        let hit = (0..500).filter(hits).count();
        assert!(hit > 400, "only {hit} of 500 books have the fault {number}");
    }
}

#[test]
fn faults_have_many_places() {
    for number in 5..=8 {
        let places = (0..500).filter_map(|index| {
            let chance = &mut Chance::new(number, index);
            let plan = lawful::book(chance);
            check_book(&damage::faulty(chance, &plan, number as usize)).err().map(|refusal| refusal.place)
        });
        let places: std::collections::BTreeSet<usize> = places.collect();
        assert!(places.len() > 10, "fault {number} only at {places:?}");
    }
}

#[test]
fn the_same_seed_gives_the_same_bytes() {
    let batch = |seed| (0..64).map(|index| requests::make(seed, index)).collect::<Vec<_>>();
    assert_eq!(batch(5), batch(5));
    assert_ne!(batch(5), batch(6));
}
