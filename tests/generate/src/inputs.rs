//! Inputs for `groups`: sheet length, sheet, book; families in turn, as for `trial`.

use crate::chance::Chance;
use crate::requests::{faulty_book, fitted, limit_book};
use crate::{damage, limits, sheets};
use oracle::limits::{DOWN_ENTRIES, LEVELS, NODES, SETTINGS, SHEET, UP_ENTRIES};

pub fn input(sheet: &[u8], book: &[u8]) -> Vec<u8> {
    [&(sheet.len() as u16).to_le_bytes(), sheet, book].concat()
}

/// Books and vehicles that fill the program's room or have the most levels, or are one over it.
fn full(chance: &mut Chance, turn: usize) -> Vec<u8> {
    match turn % 10 {
        step @ 0..=2 => input(&[0], &limits::up_entries(UP_ENTRIES - 1 + step).bytes()),
        step @ 3..=5 => input(&[0], &limits::down_entries(DOWN_ENTRIES - 4 + step).bytes()),
        step @ 6..=7 => {
            input(&sheets::tower(LEVELS - 6 + step, chance.once_in(2)), &limits::apart(SETTINGS as u8).bytes())
        }
        8 => input(&sheets::apart(NODES), &limits::apart(SETTINGS as u8).bytes()),
        _ => {
            let nodes = *chance.pick(&[NODES + 1, SHEET]);
            input(&sheets::apart(nodes), &limits::apart(*chance.pick(&[0, 1, SETTINGS as u8])).bytes())
        }
    }
}

/// Input that is too short or too long, and what stands just inside.
fn cut(chance: &mut Chance, turn: usize) -> Vec<u8> {
    let (book, _, sheet) = fitted(chance);
    let whole = input(&sheet, &book);
    match turn % 6 {
        0 => whole[..chance.below(2)].to_vec(),
        1 => whole[..chance.between(2, 1 + sheet.len())].to_vec(),
        2 => whole[..2 + sheet.len()].to_vec(),
        3 => input(&chance.bytes(SHEET), &limits::largest(chance).bytes()),
        4 => input(&chance.bytes(SHEET + 1), &limits::largest(chance).bytes()),
        _ => chance.bytes(if turn % 12 < 6 { 40_000 } else { 100_000 }),
    }
}

/// Sheets that are too long: the book's refusals come first.
fn overlong(chance: &mut Chance, turn: usize) -> Vec<u8> {
    let (book, _, _) = fitted(chance);
    let sheet = vec![0; *chance.pick(&[SHEET + 1, 5000, 20_000])];
    if turn % 2 == 0 {
        input(&sheet, &book)
    } else {
        input(&sheet, &faulty_book(chance, turn / 2))
    }
}

pub fn make(seed: u64, index: u64) -> Vec<u8> {
    let chance = &mut Chance::new(seed ^ 0x6772_6F75_7073, index);
    let turn = index as usize / 10;
    let (book, grammar, sheet) = fitted(chance);
    match index % 10 {
        0..=2 => input(&sheet, &book),
        3 => full(chance, turn),
        4 => input(&sheet, &faulty_book(chance, turn)),
        5 => input(&sheets::damaged(chance, &grammar, &sheet), &book),
        6 => cut(chance, turn),
        7 => overlong(chance, turn),
        8 => input(&sheet, &limit_book(chance, turn)),
        _ => input(&sheet, &damage::noise(chance)),
    }
}
