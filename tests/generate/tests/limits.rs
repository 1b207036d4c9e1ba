//! The limit books stand where they say.

use generate::limits;
use generate::sheets;
use generate::tables::built;
use oracle::book::check_book;
use oracle::limits::{DOWN_ENTRIES, ENTRY, LARGEST_BOOK, LEVELS, NODES, SETTINGS, SHEET, UP_ENTRIES};
use oracle::passes::sets;
use oracle::refusal::Refusal;
use oracle::sheet::read_sheet;

fn refused(number: u16) -> Refusal {
    Refusal { number, place: 0 }
}

/// The largest plausible and feasible set of a book.
fn most(book: &[u8]) -> Result<(usize, usize), Refusal> {
    let sets = sets(&check_book(book)?)?;
    let most = |sets: &[Vec<u32>]| sets.iter().map(Vec::len).max().unwrap();
    Ok((most(&sets.plausible), most(&sets.feasible)))
}

#[test]
fn sixty_four_members_and_one_more() {
    for members in [63, 64] {
        assert_eq!(most(&limits::plausible(members, true).bytes()).unwrap().0, members);
        assert_eq!(most(&limits::plausible(members, false).bytes()).unwrap(), (members, 1));
        assert_eq!(most(&limits::feasible(members).bytes()).unwrap().1, members);
    }
    assert_eq!(most(&limits::plausible(65, true).bytes()), Err(refused(10)));
    assert_eq!(most(&limits::plausible(65, false).bytes()), Err(refused(10)));
    assert_eq!(most(&limits::feasible(65).bytes()), Err(refused(11)));
}

#[test]
fn tables_of_a_given_size() {
    for entries in [7, 100, UP_ENTRIES, UP_ENTRIES + 1] {
        assert_eq!(built(&limits::up_entries(entries).bytes()).unwrap().up.len(), entries);
    }
    for entries in [31, 100, DOWN_ENTRIES, DOWN_ENTRIES + 1] {
        assert_eq!(built(&limits::down_entries(entries).bytes()).unwrap().down.len(), ENTRY * entries);
    }
}

#[test]
fn the_largest_book() {
    let book = limits::largest(&mut generate::chance::Chance::new(1, 1)).bytes();
    assert_eq!(book.len(), LARGEST_BOOK);
    assert!(check_book(&book).is_ok());
}

#[test]
fn sheets_of_a_given_size() {
    let grammar = check_book(&limits::apart(SETTINGS as u8).bytes()).unwrap();
    for nodes in [2, 3, 40, NODES, SHEET] {
        assert_eq!(read_sheet(&grammar, &sheets::apart(nodes)).unwrap().len(), nodes);
    }
    for side in [false, true] {
        let levels = |levels| read_sheet(&grammar, &sheets::tower(levels, side));
        assert_eq!(levels(LEVELS).unwrap().iter().map(|node| node.level).max(), Some(LEVELS));
        assert_eq!(levels(LEVELS + 1).unwrap_err().number, 23);
    }
}
