//! The program `groups`: sheet length, sheet and book come in; ranks, entries and group numbers go out.

use crate::book::check_book;
use crate::build::{build, Lent};
use crate::faults::{limit, wrong};
use crate::limits::{DOWN_ENTRIES, ENTRY, INPUT, KINDS, MEMBERS, NODES, SETTINGS, SHEET, UP_ENTRIES};
use crate::refusal::{refuse, Refusal};
use crate::sheet::{read_sheet, settings_at};
use crate::walk::{number_sheet, Tables};
use std::fmt::Write;

/// Sheet and book, or refusal 30.
fn cut(input: &[u8]) -> Result<(&[u8], &[u8]), Refusal> {
    if input.len() > limit("input", INPUT) || input.len() < 2 {
        return refuse(30, 0);
    }
    let length = u16::from_le_bytes([input[0], input[1]]) as usize;
    if input.len() - 2 < length || (length > SHEET && wrong("sheet-over-4096-is-30")) {
        return refuse(30, 0);
    }
    Ok(input[2..].split_at(length))
}

fn run(input: &[u8]) -> Result<String, Refusal> {
    let (sheet, book) = cut(input)?;
    let mut lent = Lent {
        plausible: vec![0; MEMBERS * KINDS],
        plausible_counts: vec![0; KINDS],
        feasible: vec![0; MEMBERS * KINDS],
        feasible_counts: vec![0; KINDS],
        up: vec![0; limit("up-room", UP_ENTRIES)],
        down: vec![0; limit("down-room", DOWN_ENTRIES) * ENTRY],
    };
    build(book, &mut lent)?;
    let Lent { plausible_counts, feasible_counts, up, down, .. } = lent;
    let tables = Tables { plausible_counts, feasible_counts, up, down };
    let room = limit("node-room", NODES);
    let mut nodes = vec![0; 3 * room];
    let mut groups = vec![0; if wrong("room-for-4096-nodes") { SHEET } else { SETTINGS * room }];
    let counts = number_sheet(book, sheet, &tables, &mut nodes, &mut groups)?;
    Ok(print(book, sheet, counts, &nodes, &groups))
}

fn print(book: &[u8], sheet: &[u8], counts: (usize, usize, usize), nodes: &[u64], groups: &[u16]) -> String {
    let grammar = check_book(book).expect("built before");
    let mut text = format!("ok {} {} {}\n", counts.0, counts.1, counts.2);
    let mut groups = groups.iter();
    for (position, node) in read_sheet(&grammar, sheet).expect("read before").iter().enumerate() {
        let at = &nodes[3 * position..];
        write!(text, "{position} {} {} {} {}", node.production, at[0], at[1], at[2]).unwrap();
        for number in groups.by_ref().take(settings_at(&grammar, node)) {
            write!(text, " {number}").unwrap();
        }
        text.push('\n');
    }
    text
}

/// What the program prints.
pub fn groups(input: &[u8]) -> String {
    run(input).unwrap_or_else(|refusal| format!("{refusal}\n"))
}
