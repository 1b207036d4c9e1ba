//! Requests for `trial` and for the checks that C calls: families in turn, so that a few hundred reach every refusal.

use crate::chance::Chance;
use crate::plan::Plan;
use crate::rooms::{self, enough, garbage};
use crate::tables::{built, damaged, renamed, strange};
use crate::{damage, lawful, limits, sheets};
use oracle::book::{check_book, Grammar};
use oracle::limits::{ENTRY, LABELS, LEVELS, MEMBERS, SETTINGS, SHEET};
use oracle::sheet::{read_sheet, settings};
use oracle::trial::room;
use oracle::walk::Tables;

/// A request's bytes: the call, then each argument with its length.
pub fn request(call: u8, arguments: &[&[u8]]) -> Vec<u8> {
    let mut bytes = vec![call];
    for argument in arguments {
        bytes.extend((argument.len() as u32).to_le_bytes());
        bytes.extend(*argument);
    }
    bytes
}

/// A run of requests, each with its length.
pub fn framed(requests: &[Vec<u8>]) -> Vec<u8> {
    requests.iter().flat_map(|r| [&(r.len() as u32).to_le_bytes(), &r[..]].concat()).collect()
}

/// The sheet call's request.
pub fn number_request(book: &[u8], sheet: &[u8], tables: &Tables, nodes: &[u64], groups: &[u16]) -> Vec<u8> {
    let nodes: Vec<u8> = nodes.iter().flat_map(|place| place.to_le_bytes()).collect();
    let groups: Vec<u8> = groups.iter().flat_map(|place| place.to_le_bytes()).collect();
    let Tables { plausible_counts, feasible_counts, up, down } = tables;
    request(4, &[book, sheet, plausible_counts, feasible_counts, up, down, &nodes, &groups])
}

/// A lawful book, mostly random.
pub(crate) fn some_plan(chance: &mut Chance) -> Plan {
    match chance.below(12) {
        0 => limits::lonely(chance),
        1 => limits::unproductive(),
        _ => lawful::book(chance),
    }
}

/// A book with a fault; the numbers 1 to 8 come in turn.
pub(crate) fn faulty_book(chance: &mut Chance, turn: usize) -> Vec<u8> {
    let plan = some_plan(chance);
    damage::faulty(chance, &plan, 1 + turn % 8)
}

pub(crate) fn limit_book(chance: &mut Chance, turn: usize) -> Vec<u8> {
    let plan = match turn % 12 {
        0 => limits::plausible(MEMBERS + 1, true),
        1 => limits::feasible(MEMBERS + 1),
        2 => limits::plausible(MEMBERS, true),
        3 => limits::feasible(MEMBERS),
        4 => limits::plausible(MEMBERS + 1, false),
        5 => limits::plausible(MEMBERS - 1, false),
        6 => limits::feasible(MEMBERS - 1),
        7 => limits::many_choices(chance),
        8 => limits::largest(chance),
        9 => limits::up_entries(chance.between(room::UP - 1, room::UP + 1)),
        10 => limits::down_entries(chance.between(room::DOWN / ENTRY - 1, room::DOWN / ENTRY + 1)),
        _ => limits::unproductive(),
    };
    plan.bytes()
}

/// Faults that go together, as bits for `damage::several`: pairs 1, left 2, children 4, kind 8, trailer 16.
const SEVERAL: [usize; 9] = [5, 3, 6, 9, 12, 10, 17, 15, 31];

fn book_request(chance: &mut Chance, turn: usize) -> Vec<u8> {
    let book = match turn % 6 {
        0 => some_plan(chance).bytes(),
        1 => limits::swollen(chance).bytes(),
        2 => damage::noise(chance),
        3 => {
            let plan = some_plan(chance);
            damage::several(chance, &plan, SEVERAL[turn / 6 % SEVERAL.len()])
        }
        4 => limit_book(chance, turn / 6),
        _ => faulty_book(chance, turn / 6),
    };
    request(1, &[&book])
}

/// A book and a sheet for it, grown where one can be.
pub(crate) fn fitted(chance: &mut Chance) -> (Vec<u8>, Grammar, Vec<u8>) {
    loop {
        let book = some_plan(chance).bytes();
        let grammar = check_book(&book).expect("a lawful book");
        if let Some(sheet) = sheets::grown(chance, &grammar) {
            return (book, grammar, sheet);
        }
    }
}

/// Sheets of the most levels, of one and two more, and ones that go wrong at one more in every way.
fn high_sheet(chance: &mut Chance, turn: usize) -> Vec<u8> {
    let side = chance.once_in(2);
    let levels = LEVELS + [1, 1, 0, 1, 1, 2, 0][turn % 7];
    let mut sheet = sheets::tower(levels, side);
    let last = sheet.pop().expect("a tower has nodes");
    match turn % 7 {
        0 => sheet.push(0),
        1 => sheet.push(*chance.pick(&[5, 64, 255])),
        3 => (),
        _ => sheet.push(last),
    }
    sheet
}

fn sheet_request(chance: &mut Chance, turn: usize) -> Vec<u8> {
    let (mut book, grammar, mut sheet) = fitted(chance);
    match turn % 8 {
        0 => (),
        1 => {
            (book, sheet) = (limits::apart(SETTINGS as u8).bytes(), sheets::apart(chance.between(SHEET - 1, SHEET + 1)))
        }
        2 => (book, sheet) = (limits::apart(2).bytes(), high_sheet(chance, turn / 8)),
        3 => sheet.truncate(chance.below(2) * chance.below(sheet.len())),
        4 => book = faulty_book(chance, turn / 8),
        5 => sheet = chance.bytes(20),
        _ => sheet = sheets::damaged(chance, &grammar, &sheet),
    }
    request(2, &[&book, &sheet])
}

/// A build with at most one slice too short, and garbage in all.
fn build_request(chance: &mut Chance, book: &[u8]) -> Vec<u8> {
    let n = check_book(book).map_or(2, |grammar| grammar.kinds.len());
    let (up, down) = built(book).map_or((20, 5 * ENTRY), |tables| (tables.up.len(), tables.down.len()));
    let short = chance.below(24);
    let mut fit = |place: usize, need: usize, most: usize| {
        let fit = if place == short { rooms::short } else { enough };
        fit(chance, need, most)
    };
    let lengths = [
        4 * fit(0, MEMBERS * n, room::SETS),
        fit(1, n, room::COUNTS),
        4 * fit(2, MEMBERS * n, room::SETS),
        fit(3, n, room::COUNTS),
        fit(4, up, room::UP),
        fit(5, down, room::DOWN),
    ];
    let slices: Vec<Vec<u8>> = lengths.iter().map(|&length| garbage(chance, length, |n| n as u8)).collect();
    let mut arguments = vec![book];
    arguments.extend(slices.iter().map(|slice| &slice[..]));
    request(3, &arguments)
}

/// The slices of the sheet call that may be made too short, and none of them.
const NODES: usize = 0;
const GROUPS: usize = 1;
const PLAUSIBLE: usize = 2;
const FEASIBLE: usize = 3;
const UP: usize = 4;
const DOWN: usize = 5;
const ALL_LONG: usize = 6;

/// The sheet call with slices of garbage; the one named by `short` is perhaps too short.
fn number(chance: &mut Chance, book: &[u8], sheet: &[u8], mut tables: Tables, short: usize) -> Vec<u8> {
    let read = check_book(book).and_then(|grammar| Ok((read_sheet(&grammar, sheet)?, grammar)));
    let (nodes, settings) = read.map_or((4, 9), |(nodes, g)| (nodes.len(), settings(&g, &nodes)));
    let mut fit = |place: usize, need: usize, most: usize| {
        let fit = if place == short { rooms::short } else { enough };
        fit(chance, need, most)
    };
    let (nodes, groups) = (fit(NODES, 3 * nodes, room::NODES), fit(GROUPS, settings, room::GROUPS));
    let counts = (tables.plausible_counts.len(), tables.feasible_counts.len());
    let counts = (fit(PLAUSIBLE, counts.0, room::COUNTS), fit(FEASIBLE, counts.1, room::COUNTS));
    let (up, down) = (fit(UP, tables.up.len(), room::UP), fit(DOWN, tables.down.len(), room::DOWN));
    tables.plausible_counts.resize(counts.0, chance.byte());
    tables.feasible_counts.resize(counts.1, chance.byte());
    tables.up.resize(up, chance.byte());
    tables.down.resize(down, chance.byte());
    let (nodes, groups) = (garbage(chance, nodes, |n| n), garbage(chance, groups, |n| n as u16));
    number_request(book, sheet, &tables, &nodes, &groups)
}

/// A book and a sheet with tables, built ones or a stranger's.
fn tabled(chance: &mut Chance, strangers: bool) -> (Vec<u8>, Vec<u8>, Tables) {
    loop {
        let (book, grammar, sheet) = fitted(chance);
        let tables = if strangers { strange(chance, &grammar) } else { built(&book) };
        if let Some(tables) = tables {
            return (book, sheet, tables);
        }
    }
}

fn sheet_call(chance: &mut Chance, turn: usize) -> Vec<u8> {
    let (mut book, mut sheet, mut tables) = tabled(chance, turn % 10 < 3);
    // Where something else is wrong too, the order of refusals decides.
    let short: &[usize] = match turn % 10 {
        0..=6 => &[NODES, GROUPS, PLAUSIBLE, FEASIBLE, UP, DOWN],
        7 => &[PLAUSIBLE, FEASIBLE],
        _ => &[NODES, GROUPS],
    };
    let short = if chance.once_in(5) { *chance.pick(short) } else { ALL_LONG };
    match turn % 10 {
        0 | 1 | 3 | 4 => (),
        5 => renamed(chance, &mut tables),
        6 => {
            book = limits::apart(SETTINGS as u8).bytes();
            sheet = sheets::apart(*chance.pick(&[40, 300, SHEET, SHEET + 1]));
            tables = built(&book).expect("small tables");
        }
        7 if chance.once_in(2) => book = faulty_book(chance, turn / 10),
        7 => {
            let grammar = check_book(&book).expect("a lawful book");
            sheet = sheets::damaged(chance, &grammar, &sheet);
        }
        _ => damaged(chance, &book, &sheet, &mut tables),
    }
    number(chance, &book, &sheet, tables, short)
}

fn blocks_request(chance: &mut Chance) -> Vec<u8> {
    let strangers = chance.once_in(2);
    let (_, _, mut tables) = tabled(chance, strangers);
    let entries = tables.down.len() / ENTRY;
    if chance.once_in(8) {
        tables.down.truncate(chance.below(tables.down.len() + 1));
    }
    // Entries so far off that times an entry's size, or cut to 32 bits, they would come round to the near ones.
    let far = *chance.pick(&[1 << 62, 1 << 63, 1 << 32, u64::MAX / ENTRY as u64 + 1]);
    let past = entries == 0 || chance.once_in(8);
    let near = if past { entries } else { chance.below(entries) };
    let entry = near as u64 + if chance.once_in(4) { far } else { 0 };
    // Labels that stand in the entry, or are the ranks behind them.
    let any = chance.byte();
    let offset = if chance.once_in(2) { chance.below(LABELS) } else { LABELS };
    let there = tables.down.get(ENTRY * near + offset).map_or(0, |&byte| byte);
    let label = *chance.pick(&[0, 1, 255, any, there, there]);
    request(5, &[&tables.down, &entry.to_le_bytes(), &[label]])
}

/// Requests that are none: no call, no such call, arguments cut, left over, of odd length or far too long.
fn malformed(chance: &mut Chance, turn: usize) -> Vec<u8> {
    let (book, sheet, tables) = tabled(chance, false);
    let mut whole = number_request(&book, &sheet, &tables, &vec![7; 3 * sheet.len()], &vec![7; SETTINGS * sheet.len()]);
    match turn % 9 {
        0 => Vec::new(),
        1 => request(*chance.pick(&[0, 128, 200, 255]), &[&book]),
        2 => whole[..chance.below(whole.len())].to_vec(),
        3 => {
            whole.push(chance.byte());
            whole
        }
        4 => request(3, &[&book, &[1, 2, 3], &[0; 2], &[0; 256], &[0; 2], &[], &[]]),
        5 => request(4, &[&book, &sheet, &[1], &[1], &[0], &[0; ENTRY], &[0; 23], &[0; 16]]),
        6 => request(5, &[&tables.down, &[0; 7][..*chance.pick(&[0, 4, 7])], &[0]]),
        7 => request(5, &[&tables.down, &[0; 8], &[0; 2][..*chance.pick(&[0, 2])]]),
        _ => request(1, &[&chance.bytes(600_000)]),
    }
}

/// The longest request of calls 1 and 2: the call's byte, and a book and a sheet that fill their rooms, each with its length.
const LONGEST: usize = 1 + 4 + room::BOOK + 4 + room::SHEET;

/// Requests of calls 1 and 2 that are none, and one that fills both rooms.
fn malformed_check(chance: &mut Chance, turn: usize) -> Vec<u8> {
    let (book, _, sheet) = fitted(chance);
    let mut whole = request(2, &[&book, &sheet]);
    match turn % 10 {
        0 => Vec::new(),
        1 => request(*chance.pick(&[0, 3, 4, 5, 129, 255]), &[&book, &sheet]),
        2 => whole[..chance.below(whole.len())].to_vec(),
        3 => [&whole[..], &[chance.byte()]].concat(),
        4 => request(1, &[&book, &sheet]),
        5 => request(2, &[&book]),
        6 => {
            let length = *chance.pick(&[room::BOOK + 1, LONGEST, LONGEST + 1, 600_000]);
            request(1, &[&chance.bytes(length)])
        }
        7 => request(2, &[&book, &chance.bytes(room::SHEET + 1)]),
        // The book's length comes round, or takes in the sheet.
        8 => {
            let length = *chance.pick(&[u32::MAX, u32::MAX - 3, (book.len() + sheet.len() + 4) as u32]);
            whole[1..5].copy_from_slice(&length.to_le_bytes());
            whole
        }
        _ => request(2, &[&chance.bytes(room::BOOK), &chance.bytes(room::SHEET)]),
    }
}

/// One request of calls 1 and 2; families come in turn with the index.
pub fn make_check(seed: u64, index: u64) -> Vec<u8> {
    let chance = &mut Chance::new(seed, index);
    let (turn, family) = (index as usize / 8, index as usize % 8);
    match family {
        0..=2 => book_request(chance, 3 * turn + family),
        3..=6 => sheet_request(chance, 4 * turn + family - 3),
        _ => malformed_check(chance, turn),
    }
}

/// One request; families come in turn with the index.
pub fn make(seed: u64, index: u64) -> Vec<u8> {
    let chance = &mut Chance::new(seed, index);
    let turn = index as usize / 16;
    match index % 16 {
        0..=2 => book_request(chance, 3 * turn + index as usize % 16),
        3..=4 => sheet_request(chance, 2 * turn + index as usize % 16 - 3),
        5..=6 => {
            let book = some_plan(chance).bytes();
            build_request(chance, &book)
        }
        7 => {
            let book = limit_book(chance, turn);
            build_request(chance, &book)
        }
        8 if turn % 2 == 0 => {
            let book = faulty_book(chance, turn / 2);
            build_request(chance, &book)
        }
        8 => malformed(chance, turn / 2),
        9 => blocks_request(chance),
        _ => sheet_call(chance, 6 * turn + index as usize % 16 - 10),
    }
}
