//! Ranks and group numbers over built tables against union-find over the whole tree.

use generate::chance::Chance;
use generate::sheets::grown;
use generate::tables::{built, renamed};
use generate::{lawful, limits, sheets};
use oracle::book::{check_book, Grammar};
use oracle::chains::{chains, first_settings, same_sharing};
use oracle::figure::grouping_of_tree;
use oracle::limits::{SETTINGS, SHEET};
use oracle::passes::sets;
use oracle::sheet::{read_sheet, settings_at, Node};
use oracle::ties::code_of;
use oracle::walk::{number_sheet, Tables};

struct Vehicle {
    book: Vec<u8>,
    grammar: Grammar,
    sheet: Vec<u8>,
    nodes: Vec<Node>,
    tables: Tables,
}

/// Random vehicles with more than one node, over built tables.
fn vehicles(seed: u64, count: u64) -> Vec<Vehicle> {
    let vehicle = |index| {
        let chance = &mut Chance::new(seed, index);
        let book = lawful::book(chance).bytes();
        let grammar = check_book(&book).unwrap();
        let sheet = grown(chance, &grammar).filter(|sheet| sheet.len() > 1)?;
        let (nodes, tables) = (read_sheet(&grammar, &sheet).unwrap(), built(&book)?);
        Some(Vehicle { book, grammar, sheet, nodes, tables })
    };
    (0..count).filter_map(vehicle).collect()
}

fn numbered(vehicle: &Vehicle, tables: &Tables) -> (Vec<u64>, Vec<u16>, usize) {
    let (mut places, mut groups) = (vec![0; 3 * vehicle.nodes.len()], vec![0; SETTINGS * vehicle.nodes.len()]);
    let (_, settings, count) = number_sheet(&vehicle.book, &vehicle.sheet, tables, &mut places, &mut groups).unwrap();
    groups.truncate(settings);
    (places, groups, count)
}

#[test]
fn groups_are_chains() {
    let vehicles = vehicles(21, 3000);
    assert!(vehicles.len() > 800, "only {} vehicles", vehicles.len());
    for vehicle in &vehicles {
        let (_, groups, count) = numbered(vehicle, &vehicle.tables);
        let chains = chains(&vehicle.grammar, &vehicle.nodes);
        assert!(same_sharing(&groups, &chains), "{:?} {:?}", vehicle.book, vehicle.sheet);
        assert_eq!(count, groups.iter().map(|&number| number as usize + 1).max().unwrap_or(0));
    }
}

#[test]
fn labels_may_be_renamed() {
    for (index, vehicle) in vehicles(22, 600).iter().enumerate() {
        let mut tables = vehicle.tables.clone();
        renamed(&mut Chance::new(22, index as u64), &mut tables);
        assert_eq!(numbered(vehicle, &tables), numbered(vehicle, &vehicle.tables));
    }
}

/// Ranks are those of what the subtree ties (plausible) and of what the whole tree ties (feasible).
#[test]
fn ranks_are_what_trees_tie() {
    for Vehicle { book, grammar, sheet, nodes, tables } in vehicles(23, 1500) {
        let sets = sets(&grammar).unwrap();
        let vehicle = Vehicle { book, grammar, sheet, nodes, tables };
        let (places, ..) = numbered(&vehicle, &vehicle.tables);
        let Vehicle { grammar, sheet, nodes, .. } = &vehicle;
        let (chains, firsts) = (chains(grammar, nodes), first_settings(grammar, nodes));
        for (position, node) in nodes.iter().enumerate() {
            let kind = grammar.productions[node.production].left;
            let subtree = &sheet[position..end(nodes, position)];
            let plausible = sets.plausible[kind][places[3 * position] as usize];
            assert_eq!(plausible, grouping_of_tree(grammar, kind, subtree));
            let own = &chains[firsts[position]..][..settings_at(grammar, node)];
            let labels: Vec<u8> = own.iter().map(|c| own.iter().position(|o| o == c).unwrap() as u8).collect();
            assert_eq!(sets.feasible[kind][places[3 * position + 1] as usize], code_of(&labels));
        }
    }
}

fn end(nodes: &[Node], node: usize) -> usize {
    nodes[node].children.last().map_or(node + 1, |&last| end(nodes, last))
}

#[test]
fn numbers_up_to_32_767() {
    let book = limits::apart(SETTINGS as u8).bytes();
    let (sheet, tables) = (sheets::apart(SHEET), built(&book).unwrap());
    let (mut places, mut groups) = (vec![0; 3 * SHEET], vec![0; SETTINGS * SHEET]);
    assert_eq!(
        number_sheet(&book, &sheet, &tables, &mut places, &mut groups),
        Ok((SHEET, SETTINGS * SHEET, SETTINGS * SHEET))
    );
    groups.sort();
    assert!(groups.iter().enumerate().all(|(place, &number)| place == number as usize));
}
