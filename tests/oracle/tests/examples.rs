//! Document 01's "Examples to hold against it".

use oracle::book::{check_book, FIG_1};
use oracle::build::{build, Lent};
use oracle::groups::groups;
use oracle::limits::{ENTRY, INPUT, LABELS, LARGEST_BOOK};
use oracle::passes::sets;
use oracle::ties::code_of;

fn input(sheet: &[u8], book: &[u8]) -> Vec<u8> {
    [&(sheet.len() as u16).to_le_bytes(), sheet, book].concat()
}

fn answer(sheet: &[u8]) -> String {
    groups(&input(sheet, &FIG_1))
}

#[test]
fn the_sets_of_fig_1() {
    let sets = sets(&check_book(&FIG_1).unwrap()).unwrap();
    assert_eq!(sets.plausible, [vec![0, 8], vec![0, 72, 576], vec![72, 576]]);
    assert_eq!(sets.feasible, [vec![0, 8], vec![0, 72, 576], vec![0, 72, 576]]);
}

#[test]
fn the_entries_of_fig_1() {
    let mut lent = Lent {
        plausible: vec![7; 200],
        plausible_counts: vec![7; 4],
        feasible: vec![7; 200],
        feasible_counts: vec![7; 4],
        up: vec![7; 10],
        down: vec![7; 25 * ENTRY - 1],
    };
    assert_eq!(build(&FIG_1, &mut lent), Ok((9, 24)));
    assert_eq!(lent.plausible[..3], [0, 8, 0]);
    assert!(lent.plausible[192..].iter().all(|&place| place == 7), "places past 64N stay");
    assert_eq!((lent.plausible_counts[3], lent.up[9]), (7, 7));
    assert!(lent.down[24 * ENTRY..].iter().all(|&byte| byte == 7), "a rest is no entry");
}

#[test]
fn the_two_runs_whole() {
    let two_groups = "ok 3 10 2\n0 0 1 1 5 0 1\n1 1 2 2 11 0 0 1 1\n2 3 1 2 20 0 0 1 1\n";
    assert_eq!(answer(&[0, 1, 3]), two_groups);
    let one_group = "ok 3 10 1\n0 0 0 0 0 0 0\n1 2 0 0 12 0 0 0 0\n2 4 0 0 21 0 0 0 0\n";
    assert_eq!(answer(&[0, 2, 4]), one_group);
}

#[test]
fn the_refused_sheets() {
    assert_eq!(answer(&[0, 1]), "refused 22 2\n");
    assert_eq!(answer(&[0, 1, 3, 3]), "refused 22 3\n");
    assert_eq!(answer(&[0, 9]), "refused 21 1\n");
    assert_eq!(answer(&[3]), "refused 22 0\n");
    assert_eq!(answer(&[0, 1, 3, 9]), "refused 21 3\n");
}

#[test]
fn eight_settings_apart_and_together() {
    assert_eq!(code_of(&[0, 1, 2, 3, 4, 5, 6, 7]), 16_434_824);
    assert_eq!(code_of(&[0; 8]), 0);
}

/// What is worked out from the limits is what the page says.
#[test]
fn the_numbers_of_the_page() {
    assert_eq!((LABELS, ENTRY), (40, 44));
    assert_eq!((LARGEST_BOOK, INPUT), (33_164, 37_262));
}

#[test]
fn eleven_bytes() {
    assert_eq!(groups(&input(&[0], &FIG_1[..11])), "refused 1 0\n");
}

/// A kind and a production of it, and zeros up to a trailer that no distance reaches back from: they are right only
/// where 65,536 is taken for 0. Such books are over the room of `trial`; tests/c/checks.c has them too.
#[test]
fn books_longer_than_a_distance() {
    for trailer in [65_536, 99_988] {
        let mut book = vec![0; trailer];
        let fields = [1, 1, 1, 0, (trailer % 65_536) as u16, ((trailer - 2) % 65_536) as u16];
        book.extend(fields.iter().flat_map(|field| field.to_le_bytes()));
        assert_eq!(check_book(&book).unwrap_err().to_string(), "refused 4 0");
    }
}

/// S to X; X to X; X to nothing; no settings.
const TOWER: [u8; 27] = [
    0, 0, 0, 0, // kinds
    0, 1, 1, 0, 1, 1, 1, 0, 1, 0, 0, // productions
    1, 0, 2, 0, 3, 0, 0, 0, 15, 0, 11, 0,
];

/// S to X, X to four X, X to nothing; X has one setting.
const FOUR_OR_NONE: [u8; 30] = [
    0, 0, 1, 0, // kinds
    0, 1, 1, 0, 1, 4, 1, 1, 1, 1, 0, 1, 0, 0, // productions
    1, 0, 2, 0, 3, 0, 0, 0, 18, 0, 14, 0,
];

#[test]
fn levels_64_and_65() {
    let tower = |levels: usize| [&[0][..], &vec![1; levels - 2], &[2]].concat();
    let answer = |levels: usize| groups(&input(&tower(levels), &TOWER));
    assert!(answer(64).starts_with("ok 64 0 0\n"));
    assert_eq!(answer(65), "refused 23 64\n");
}

/// A tree with so many nodes that have four children, spread over them to stay flat.
fn spread(fours: usize) -> Vec<u8> {
    if fours == 0 {
        return vec![2];
    }
    let under = |child: usize| spread((fours - 1 + child) / 4);
    std::iter::once(1).chain((0..4).flat_map(under)).collect()
}

#[test]
fn groups_0_to_300() {
    let answer = groups(&input(&[vec![0], spread(75)].concat(), &FOUR_OR_NONE));
    let last = |line: &str| line.rsplit(' ').next().unwrap().parse().unwrap();
    let mut numbers: Vec<usize> = answer.lines().skip(2).map(last).collect();
    numbers.sort();
    assert!(answer.starts_with("ok 302 301 301\n"));
    assert_eq!(numbers, (0..301).collect::<Vec<_>>());
}
